//! How a message is waited for, by a thread or by a task.

use std::future::Future;
use std::hint;
use std::pin::Pin;
use std::task::{Context, Poll, Waker};
use std::thread;
use std::time::{Duration, Instant};

use crate::error::{RecvTimeoutError, TryRecvError};
use crate::sys::{self, Words};
use crate::wake;

/// How often a thread looks before it parks. Before each of the first looks it pauses, twice as long
/// as before the last one, and before the others it lets other threads run.
const LOOKS: u32 = 10;
const LOOKS_AFTER_A_PAUSE: u32 = 6;

/// What is taken from, and armed.
pub(crate) trait Source {
    type Item;

    /// Takes the words of the next item, if one is there.
    fn take(&mut self, words: &mut Words) -> Result<(), TryRecvError>;

    /// The item of words that were taken, of which it is made once.
    unsafe fn item(words: Words) -> Self::Item;

    /// Says by a token whom to wake, or by 0 that nobody is. The status of the library, and the
    /// token that was there before.
    fn arm(&mut self, token: u64) -> (u8, u64);

    /// Takes the next item, if one is there.
    #[inline]
    fn try_take(&mut self) -> Result<Self::Item, TryRecvError> {
        let mut words = Words::default();
        self.take(&mut words)?;
        // The words were taken, and nobody else has them.
        Ok(unsafe { Self::item(words) })
    }

    /// Takes the next item, or leaves a waker.
    #[inline]
    fn poll(&mut self, context: &mut Context<'_>) -> Poll<Option<Self::Item>> {
        let mut words = Words::default();
        match self.take_or_leave(&mut words, context.waker()) {
            // The words were taken, and nobody else has them.
            Ok(()) => Poll::Ready(Some(unsafe { Self::item(words) })),
            Err(TryRecvError::Ended) => Poll::Ready(None),
            Err(TryRecvError::Empty) => Poll::Pending,
        }
    }

    /// Takes the words of the next item, or leaves a waker: then it answers `Empty`.
    #[inline]
    fn take_or_leave(&mut self, words: &mut Words, waker: &Waker) -> Result<(), TryRecvError> {
        loop {
            match self.take(words) {
                Err(TryRecvError::Empty) if !self.leaves(waker) => {}
                taken => return taken,
            }
        }
    }

    /// Leaves a waker, and answers whether nothing can be taken now.
    #[cold]
    fn leaves(&mut self, waker: &Waker) -> bool {
        let (status, old) = self.arm(wake::token(waker));
        wake::forget(old);
        status == sys::EMPTY
    }

    /// Nobody is to be woken any more.
    fn disarm(&mut self) {
        let (_, old) = self.arm(0);
        wake::forget(old);
    }

    /// Waits for the next item, for so long at most.
    #[inline]
    fn wait(&mut self, most: Option<Duration>) -> Result<Self::Item, RecvTimeoutError> {
        let mut words = Words::default();
        let taken = match self.take(&mut words) {
            Err(TryRecvError::Empty) => self.look_and_park(&mut words, most),
            taken => taken,
        };
        match taken {
            // The words were taken, and nobody else has them.
            Ok(()) => Ok(unsafe { Self::item(words) }),
            Err(TryRecvError::Ended) => Err(RecvTimeoutError::Ended),
            Err(TryRecvError::Empty) => Err(RecvTimeoutError::Timeout),
        }
    }

    /// Looks some more times, and parks the thread then. `Empty` says that the time is over.
    #[cold]
    fn look_and_park(
        &mut self,
        words: &mut Words,
        most: Option<Duration>,
    ) -> Result<(), TryRecvError> {
        let end = most.and_then(|most| Instant::now().checked_add(most));
        for look in 0..LOOKS {
            if look < LOOKS_AFTER_A_PAUSE {
                (0..1 << look).for_each(|_| hint::spin_loop());
            } else {
                thread::yield_now();
            }
            match self.take(words) {
                Err(TryRecvError::Empty) => {}
                taken => return taken,
            }
        }
        wake::with_this_thread(|waker| loop {
            match self.take_or_leave(words, waker) {
                Err(TryRecvError::Empty) => {}
                taken => return taken,
            }
            match end {
                None => thread::park(),
                Some(end) => match end.checked_duration_since(Instant::now()) {
                    Some(left) if !left.is_zero() => thread::park_timeout(left),
                    _ => {
                        self.disarm();
                        return self.take(words);
                    }
                },
            }
        })
    }
}

/// The next item of a source.
pub(crate) struct Next<'s, S>(pub(crate) &'s mut S);

impl<S: Source> Future for Next<'_, S> {
    type Output = Option<S::Item>;

    #[inline]
    fn poll(mut self: Pin<&mut Self>, context: &mut Context<'_>) -> Poll<Option<S::Item>> {
        self.0.poll(context)
    }
}

/// The calls that wait, which are the same for whatever messages come from. The text makes a
/// `taker` for which one message waits, for the examples.
macro_rules! receives {
    ($type:ident, $item:ty, $taker:literal) => {
        impl $type {
            /// Waits for the next message. It looks some times, and parks the thread then.
            ///
            /// ```
            #[doc = $taker]
            /// assert!(taker.recv().is_ok());
            /// ```
            #[inline]
            pub fn recv(&mut self) -> Result<$item, crate::Ended> {
                crate::receive::Source::wait(self, None).map_err(|_| crate::Ended)
            }

            /// Waits for the next message, for that long at most.
            ///
            /// ```
            /// use std::time::Duration;
            ///
            #[doc = $taker]
            /// assert!(taker.recv_timeout(Duration::from_millis(1)).is_ok());
            /// assert!(taker.recv_timeout(Duration::from_millis(1)).is_err());
            /// ```
            #[inline]
            pub fn recv_timeout(
                &mut self,
                timeout: std::time::Duration,
            ) -> Result<$item, crate::RecvTimeoutError> {
                crate::receive::Source::wait(self, Some(timeout))
            }

            /// The next message for a task, which is woken when one comes. None where nothing more
            /// will.
            ///
            /// The waker of the last call alone is woken, as of any future.
            ///
            /// ```
            /// use std::sync::Arc;
            /// use std::task::{Context, Wake};
            ///
            /// struct Nobody;
            /// impl Wake for Nobody {
            ///     fn wake(self: Arc<Self>) {}
            /// }
            ///
            #[doc = $taker]
            /// let waker = Arc::new(Nobody).into();
            /// let mut context = Context::from_waker(&waker);
            /// assert!(taker.poll_recv(&mut context).is_ready());
            /// assert!(taker.poll_recv(&mut context).is_pending());
            /// ```
            #[inline]
            pub fn poll_recv(
                &mut self,
                context: &mut std::task::Context<'_>,
            ) -> std::task::Poll<Option<$item>> {
                crate::receive::Source::poll(self, context)
            }

            /// The next message, in an `async` function on any executor. None where nothing more
            /// will come.
            ///
            /// It may be dropped while it waits; no message is lost then.
            ///
            /// ```
            #[doc = $taker]
            /// let count = async move {
            ///     let mut count = 0;
            ///     while taker.next().await.is_some() {
            ///         count += 1;
            ///     }
            ///     count
            /// };
            /// # let _ = async { let _: usize = count.await; };
            /// ```
            #[inline]
            pub async fn next(&mut self) -> Option<$item> {
                crate::receive::Next(self).await
            }
        }

        /// Waits for each next message, up to the end.
        ///
        /// ```
        #[doc = $taker]
        /// assert_eq!((&mut taker).take(1).count(), 1);
        /// ```
        impl Iterator for &mut $type {
            type Item = $item;

            #[inline]
            fn next(&mut self) -> Option<$item> {
                self.recv().ok()
            }
        }

        impl std::iter::FusedIterator for &mut $type {}
    };
}
pub(crate) use receives;
