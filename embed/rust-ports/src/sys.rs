//! What `varukoni_ports.h` declares. That these declarations fit the header is proved by nothing.

use std::arch::x86_64::{_mm_set_epi64x, _mm_storeu_si128};

/// A handle of the library: an address of its own, and whether it is open.
macro_rules! handle {
    ($(#[$about:meta])* $name:ident, $drop:ident) => {
        $(#[$about])*
        #[repr(C)]
        pub(crate) struct $name {
            at: *mut u8,
            is_open: bool,
        }

        impl $name {
            /// All bytes zero: a closed handle.
            pub(crate) const CLOSED: $name = $name {
                at: std::ptr::null_mut(),
                is_open: false,
            };
        }

        impl Drop for $name {
            fn drop(&mut self) {
                if self.is_open {
                    // The handle is this value's alone.
                    unsafe { $drop(self) };
                }
            }
        }

        // "A handle goes to another thread by a lock, ..": the library proves `Send` of what the
        // handle leads to.
        unsafe impl Send for $name {}
    };
}

handle! {
    /// `struct varukoni_port`: a port, or what is left of a closed one. Dropped, its memory is
    /// freed; what messages own has to be taken out before.
    Port, varukoni_port_drop
}
handle! {
    /// `struct varukoni_fan`: a taker with up to 32 lines, or what is left of a closed one.
    Fan, varukoni_fan_drop
}
handle! {
    /// `struct varukoni_poster`: what posts over one line of a fan. Dropped, it gives the line back
    /// and tells nobody whom to wake.
    Poster, close_untold
}
handle! {
    /// `struct varukoni_group`: members with a line to each.
    Group, varukoni_group_drop
}

/// Gives a line back. Nobody is woken: it is for a poster that is lost on the way.
unsafe fn close_untold(poster: *mut Poster) {
    varukoni_poster_close(poster, &mut 0);
}

/// What hands back, once closed, what was posted there and not taken.
pub(crate) trait Drains {
    fn is_open(&self) -> bool;

    fn drain(&mut self, message: &mut Words) -> u8;
}

impl Drains for Port {
    fn is_open(&self) -> bool {
        self.is_open
    }

    fn drain(&mut self, message: &mut Words) -> u8 {
        // The handle is this call's alone, and the two places are different ones.
        unsafe { varukoni_port_drain(self, message) }
    }
}

impl Drains for Fan {
    fn is_open(&self) -> bool {
        self.is_open
    }

    fn drain(&mut self, message: &mut Words) -> u8 {
        // The handle is this call's alone, and the places are different ones.
        unsafe { varukoni_fan_drain(self, message, &mut 0) }
    }
}

/// `struct varukoni_message`: three words of the host, which the library doesn't follow.
#[repr(C)]
#[derive(Clone, Copy, Default)]
pub(crate) struct Words {
    pub(crate) body: u64,
    pub(crate) length: u64,
    pub(crate) ports: u64,
}

impl Words {
    /// Writes the first two words at once, as the library reads them: a read of both takes one
    /// write from the processor's buffer, and waits until two have reached the cache.
    #[inline]
    pub(crate) fn new(body: u64, length: u64, ports: u64) -> Words {
        let mut words = Words {
            ports,
            ..Words::default()
        };
        let front = (&mut words as *mut Words).cast();
        // SSE2 is a part of each x86-64 processor, and two words stand at the front.
        unsafe { _mm_storeu_si128(front, _mm_set_epi64x(length as i64, body as i64)) };
        words
    }
}

extern "C" {
    pub(crate) fn varukoni_channel_open(left: *mut Port, right: *mut Port, name: u64) -> u8;
    pub(crate) fn varukoni_port_start(port: *mut Port) -> u8;
    pub(crate) fn varukoni_port_post(port: *mut Port, message: *const Words, wake: *mut u64) -> u8;
    pub(crate) fn varukoni_port_take(port: *mut Port, message: *mut Words) -> u8;
    pub(crate) fn varukoni_port_arm(port: *mut Port, token: u64, old: *mut u64) -> u8;
    pub(crate) fn varukoni_port_adopt(port: *mut Port, token: u64, old: *mut u64) -> u8;
    pub(crate) fn varukoni_port_close(port: *mut Port, own: *mut u64, wake: *mut u64) -> u8;
    pub(crate) fn varukoni_port_drain(port: *mut Port, message: *mut Words) -> u8;
    fn varukoni_port_drop(port: *mut Port);

    pub(crate) fn varukoni_fan_open(fan: *mut Fan) -> u8;
    pub(crate) fn varukoni_fan_line(fan: *mut Fan, poster: *mut Poster, line: *mut u32) -> u8;
    pub(crate) fn varukoni_poster_post(
        poster: *mut Poster,
        message: *const Words,
        wake: *mut u64,
    ) -> u8;
    pub(crate) fn varukoni_poster_close(poster: *mut Poster, wake: *mut u64) -> u8;
    pub(crate) fn varukoni_fan_start(fan: *mut Fan) -> u8;
    pub(crate) fn varukoni_fan_take(fan: *mut Fan, message: *mut Words, line: *mut u32) -> u8;
    pub(crate) fn varukoni_fan_arm(fan: *mut Fan, token: u64, old: *mut u64) -> u8;
    pub(crate) fn varukoni_fan_close(fan: *mut Fan, own: *mut u64) -> u8;
    fn varukoni_fan_drain(fan: *mut Fan, message: *mut Words, line: *mut u32) -> u8;
    fn varukoni_fan_drop(fan: *mut Fan);

    pub(crate) fn varukoni_group_open(group: *mut Group) -> u8;
    pub(crate) fn varukoni_group_join(
        group: *mut Group,
        poster: *mut Poster,
        member: *mut u64,
    ) -> u8;
    pub(crate) fn varukoni_group_count(group: *mut Group, count: *mut usize) -> u8;
    pub(crate) fn varukoni_group_cast(
        group: *mut Group,
        source: u64,
        message: *const Words,
        answers: *mut Answer,
        room: usize,
    ) -> u8;
    pub(crate) fn varukoni_group_leave(group: *mut Group, member: u64, wake: *mut u64) -> u8;
    fn varukoni_group_drop(group: *mut Group);
}

/// `struct varukoni_answer`: what a cast came to at one member.
#[repr(C)]
#[derive(Clone, Copy, Default)]
pub(crate) struct Answer {
    pub(crate) member: u64,
    pub(crate) wake: u64,
    pub(crate) status: u8,
}

pub(crate) const DONE: u8 = 0;
pub(crate) const EMPTY: u8 = 1;
pub(crate) const ENDED: u8 = 2;
pub(crate) const NO_MEMORY: u8 = 3;
pub(crate) const CLOSED: u8 = 6;
pub(crate) const FULL: u8 = 10;
