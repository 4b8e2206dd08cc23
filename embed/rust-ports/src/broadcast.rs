//! Broadcast channels.

use std::alloc::{handle_alloc_error, Layout};
use std::any::Any;
use std::collections::HashMap;
use std::fmt;
use std::sync::{Arc, Mutex};

use crate::error::{TryRecvError, Undelivered};
use crate::later::locked;
use crate::receive::{receives, Source};
use crate::sys::{self, Drains};
use crate::wake;

/// What a broadcast carries: bytes, or one value that all who get it read.
///
/// ```
/// use varukoni_ports::Shared;
///
/// let shared = Shared::new(vec!["a", "b"]);
/// assert_eq!(shared.downcast_ref::<Vec<&str>>().unwrap(), &["a", "b"]);
/// assert_eq!(Shared::from("text").as_bytes(), Some(&b"text"[..]));
/// ```
#[derive(Clone)]
pub struct Shared(Arc<Content>);

enum Content {
    Bytes(Box<[u8]>),
    Value(Box<dyn Any + Send + Sync>),
}

impl Shared {
    /// A value that threads may read at once.
    ///
    /// ```
    /// let shared = varukoni_ports::Shared::new(7_u64);
    /// assert_eq!(shared.downcast_ref(), Some(&7_u64));
    /// ```
    pub fn new<T: Send + Sync + 'static>(value: T) -> Shared {
        Shared(Arc::new(Content::Value(Box::new(value))))
    }

    /// The bytes, where it has been made of bytes.
    ///
    /// ```
    /// assert_eq!(varukoni_ports::Shared::new(7_u64).as_bytes(), None);
    /// ```
    pub fn as_bytes(&self) -> Option<&[u8]> {
        match &*self.0 {
            Content::Bytes(bytes) => Some(bytes),
            Content::Value(_) => None,
        }
    }

    /// The value, where it is one of that type.
    ///
    /// ```
    /// assert!(varukoni_ports::Shared::from("text").downcast_ref::<u64>().is_none());
    /// ```
    pub fn downcast_ref<T: 'static>(&self) -> Option<&T> {
        match &*self.0 {
            Content::Bytes(_) => None,
            Content::Value(value) => value.downcast_ref(),
        }
    }
}

impl<B: Into<Vec<u8>>> From<B> for Shared {
    fn from(bytes: B) -> Shared {
        Shared(Arc::new(Content::Bytes(bytes.into().into_boxed_slice())))
    }
}

impl fmt::Debug for Shared {
    fn fmt(&self, out: &mut fmt::Formatter<'_>) -> fmt::Result {
        match self.as_bytes() {
            Some(bytes) => write!(out, "Shared({} bytes)", bytes.len()),
            None => out.write_str("Shared(a value)"),
        }
    }
}

/// The channels of one origin and name.
struct Group {
    key: Key,
    members: Mutex<sys::Group>,
}

/// An origin and a name.
type Key = (String, String);

/// The groups that have members. It is locked before the members of a group.
static GROUPS: Mutex<Option<HashMap<Key, Arc<Group>>>> = Mutex::new(None);

/// One of the channels of a name: what is posted at one comes to all others (HTML, "Broadcasting to
/// other browsing contexts").
///
/// All get the messages in one order. A post and the opening or closing of a channel of the same
/// name take a lock for as long as they go through its members; no take does.
///
/// ```
/// use varukoni_ports::BroadcastChannel;
///
/// let near = BroadcastChannel::new("news");
/// let mut first = BroadcastChannel::new("news");
/// let mut second = BroadcastChannel::new("news");
/// assert_eq!(near.post_message("hello").unwrap(), 2);
/// assert_eq!(first.recv().unwrap().as_bytes(), Some(&b"hello"[..]));
/// assert_eq!(second.recv().unwrap().as_bytes(), Some(&b"hello"[..]));
/// ```
pub struct BroadcastChannel {
    handle: sys::Fan,
    group: Arc<Group>,
    member: u64,
}

fn no_memory() -> ! {
    handle_alloc_error(Layout::new::<[u8; 5_000]>())
}

impl Group {
    fn open(key: Key) -> Arc<Group> {
        let mut members = sys::Group::CLOSED;
        // The handle is closed, and this call's alone.
        if unsafe { sys::varukoni_group_open(&mut members) } != sys::DONE {
            no_memory();
        }
        let members = Mutex::new(members);
        Arc::new(Group { key, members })
    }

    /// A new taker whose only line is the last member's of the group.
    fn join(&self) -> (sys::Fan, u64) {
        let (mut handle, mut poster) = (sys::Fan::CLOSED, sys::Poster::CLOSED);
        let (mut line, mut member) = (0, 0);
        let mut members = locked(&self.members);
        // The handles are this call's alone, the group's by its lock, and no two places are one.
        let are_done = unsafe {
            sys::varukoni_fan_open(&mut handle) == sys::DONE
                && sys::varukoni_fan_line(&mut handle, &mut poster, &mut line) == sys::DONE
                && sys::varukoni_fan_start(&mut handle) == sys::DONE
                && sys::varukoni_group_join(&mut *members, &mut poster, &mut member) == sys::DONE
        };
        if !are_done {
            no_memory();
        }
        (handle, member)
    }

    /// Posts at each member but that one. What each answered.
    fn cast(&self, member: u64, words: &sys::Words, owns: &Shared) -> Vec<sys::Answer> {
        let mut members = locked(&self.members);
        let mut count = 0;
        // The handle is this call's by its lock.
        unsafe { sys::varukoni_group_count(&mut *members, &mut count) };
        let mut answers = vec![sys::Answer::default(); count];
        for _ in 0..count {
            // The words that a member takes own a count of their own.
            std::mem::forget(Shared::clone(owns));
        }
        // There is room for as many answers as members, and no two places are one.
        unsafe {
            let room = answers.as_mut_ptr();
            sys::varukoni_group_cast(&mut *members, member, words, room, count);
        }
        answers
    }
}

impl BroadcastChannel {
    /// Opens one more channel of that name, in the origin of the program.
    ///
    /// Where there is no memory it ends the process, as `Vec::push` does.
    pub fn new(name: &str) -> BroadcastChannel {
        BroadcastChannel::in_origin("", name)
    }

    /// The same in another origin, for a program that has several: channels of different origins
    /// have nothing in common. The origin is any text that is the same for one origin.
    ///
    /// ```
    /// use varukoni_ports::BroadcastChannel;
    ///
    /// let here = BroadcastChannel::in_origin("https://a.test", "news");
    /// let _there = BroadcastChannel::in_origin("https://b.test", "news");
    /// assert_eq!(here.post_message("hello").unwrap(), 0);
    /// ```
    pub fn in_origin(origin: &str, name: &str) -> BroadcastChannel {
        let key = (String::from(origin), String::from(name));
        let mut groups = locked(&GROUPS);
        let known = groups.get_or_insert_with(HashMap::new);
        let found = known.entry(key.clone());
        let group = Arc::clone(found.or_insert_with(|| Group::open(key)));
        let (handle, member) = group.join();
        BroadcastChannel {
            handle,
            group,
            member,
        }
    }

    /// The name of the channel.
    ///
    /// ```
    /// assert_eq!(varukoni_ports::BroadcastChannel::new("news").name(), "news");
    /// ```
    pub fn name(&self) -> &str {
        &self.group.key.1
    }

    /// Posts at all other channels of the name that are there, and answers how many these are.
    ///
    /// An error says that memory ran out for some: the others got it all the same.
    ///
    /// ```
    /// use varukoni_ports::BroadcastChannel;
    ///
    /// let alone = BroadcastChannel::new("alone");
    /// assert_eq!(alone.post_message(vec![1, 2, 3]).unwrap(), 0);
    /// ```
    pub fn post_message(&self, payload: impl Into<Shared>) -> Result<usize, Undelivered> {
        let shared = payload.into();
        let words = sys::Words {
            body: Arc::as_ptr(&shared.0) as usize as u64,
            ..sys::Words::default()
        };
        let answers = self.group.cast(self.member, &words, &shared);
        let (mut posted, mut refused) = (0, 0);
        for answer in answers {
            wake::wake(answer.wake);
            if answer.status == sys::DONE {
                posted += 1;
                continue;
            }
            refused += usize::from(answer.status == sys::NO_MEMORY);
            // Its member has taken nothing.
            drop(unsafe { shared_of(&words) });
        }
        match refused {
            0 => Ok(posted),
            _ => Err(Undelivered { posted, refused }),
        }
    }

    /// Takes the next message, if one is there. There is always more to come while the channel is
    /// open, so it never answers `Ended`.
    ///
    /// ```
    /// use varukoni_ports::{BroadcastChannel, TryRecvError};
    ///
    /// let mut channel = BroadcastChannel::new("silent");
    /// assert_eq!(channel.try_recv().unwrap_err(), TryRecvError::Empty);
    /// ```
    #[inline]
    pub fn try_recv(&mut self) -> Result<Shared, TryRecvError> {
        self.try_take()
    }

    /// Closes the channel: it gets nothing more, and what nobody took is dropped. Dropping it does
    /// the same.
    ///
    /// ```
    /// use varukoni_ports::BroadcastChannel;
    ///
    /// let near = BroadcastChannel::new("closing");
    /// BroadcastChannel::new("closing").close();
    /// assert_eq!(near.post_message("hello").unwrap(), 0);
    /// ```
    pub fn close(self) {}

    /// Leaves the group, which goes with its last member.
    fn leave(&mut self) {
        let mut woken = 0;
        let mut groups = locked(&GROUPS);
        let mut members = locked(&self.group.members);
        let mut count = 0;
        // The handle is this call's by its lock, and no two places are one.
        unsafe {
            sys::varukoni_group_leave(&mut *members, self.member, &mut woken);
            sys::varukoni_group_count(&mut *members, &mut count);
        }
        drop(members);
        if let (0, Some(groups)) = (count, groups.as_mut()) {
            groups.remove(&self.group.key);
        }
        drop(groups);
        wake::forget(woken);
    }
}

/// What these words own, which is taken out once.
#[inline]
unsafe fn shared_of(words: &sys::Words) -> Shared {
    Shared(Arc::from_raw(words.body as usize as *const Content))
}

impl Drop for BroadcastChannel {
    fn drop(&mut self) {
        self.leave();
        let mut own = 0;
        // The handle is this channel's alone, and the two places are different ones.
        unsafe { sys::varukoni_fan_close(&mut self.handle, &mut own) };
        wake::forget(own);
        let mut words = sys::Words::default();
        // The only line has ended, so all comes out now.
        while self.handle.drain(&mut words) == sys::DONE {
            // Each message that was posted is handed back once.
            drop(unsafe { shared_of(&words) });
        }
    }
}

impl Source for BroadcastChannel {
    type Item = Shared;

    #[inline]
    fn take(&mut self, words: &mut sys::Words) -> Result<(), TryRecvError> {
        // The handle is this channel's alone, and the three places are different ones.
        match unsafe { sys::varukoni_fan_take(&mut self.handle, words, &mut 0) } {
            sys::DONE => Ok(()),
            _ => Err(TryRecvError::Empty),
        }
    }

    #[inline]
    unsafe fn item(words: sys::Words) -> Shared {
        shared_of(&words)
    }

    fn arm(&mut self, token: u64) -> (u8, u64) {
        let mut old = 0;
        // The handle is this channel's alone.
        let status = unsafe { sys::varukoni_fan_arm(&mut self.handle, token, &mut old) };
        (status, old)
    }
}

receives!(
    BroadcastChannel,
    Shared,
    "let near = varukoni_ports::BroadcastChannel::new(\"examples\");
let mut taker = varukoni_ports::BroadcastChannel::new(\"examples\");
near.post_message(\"hello\").unwrap();"
);

impl fmt::Debug for BroadcastChannel {
    fn fmt(&self, out: &mut fmt::Formatter<'_>) -> fmt::Result {
        out.debug_struct("BroadcastChannel")
            .field("name", &self.name())
            .finish_non_exhaustive()
    }
}
