//! What a message carries beside its ports.

use std::any::TypeId;
use std::fmt;
use std::marker::PhantomData;
use std::mem::ManuallyDrop;
use std::ptr;

use crate::sys::Words;

/// What a message carries beside its ports: bytes, or a value of any type that may go to another
/// thread. No byte of it is copied on the way.
///
/// A number travels in the message itself, any other value in a box. A payload that nobody reads is
/// dropped like any other value.
///
/// ```
/// use varukoni_ports::Payload;
///
/// let payload = Payload::new(vec!["a", "b"]);
/// assert_eq!(payload.downcast::<Vec<&str>>().unwrap(), ["a", "b"]);
/// assert_eq!(Payload::from(b"hello").as_bytes(), Some(&b"hello"[..]));
/// ```
pub struct Payload {
    /// The address and length of a boxed slice; or a number or the address of a value's box, and
    /// the address of its `Kind`.
    body: u64,
    length: u64,
    form: Form,
}

/// What a payload is made of. It takes a whole word, as the words beside it: a copy of all of them
/// waits for a word of which only a byte was written.
#[derive(Clone, Copy, PartialEq, Eq)]
#[repr(u64)]
enum Form {
    Value = 0,
    Bytes = 1,
}

/// What is known of a value's type.
struct Kind {
    id: fn() -> TypeId,
    name: fn() -> &'static str,
    drop: unsafe fn(u64),
}

impl Kind {
    const fn of<T: Send + 'static>() -> Kind {
        Kind {
            id: TypeId::of::<T>,
            name: std::any::type_name::<T>,
            drop: drop_value::<T>,
        }
    }

    /// Whether it is the kind of this type. A number's kind has one place, which spares a call.
    #[inline]
    fn is_of<T: 'static>(&self) -> bool {
        match number_kind::<T>() {
            Some(kind) => ptr::eq(self, kind),
            None => (self.id)() == TypeId::of::<T>(),
        }
    }
}

/// The `Kind` of each type that is no number has a place, or several, that outlive all payloads.
struct KindOf<T>(PhantomData<T>);

impl<T: Send + 'static> KindOf<T> {
    const KIND: &'static Kind = &Kind::of::<T>();
}

static U64: Kind = Kind::of::<u64>();
static I64: Kind = Kind::of::<i64>();
static USIZE: Kind = Kind::of::<usize>();
static U32: Kind = Kind::of::<u32>();
static I32: Kind = Kind::of::<i32>();

/// The `Kind` of a type whose values travel in the message itself.
#[inline]
fn number_kind<T: 'static>() -> Option<&'static Kind> {
    match TypeId::of::<T>() {
        id if id == TypeId::of::<u64>() => Some(&U64),
        id if id == TypeId::of::<i64>() => Some(&I64),
        id if id == TypeId::of::<usize>() => Some(&USIZE),
        id if id == TypeId::of::<u32>() => Some(&U32),
        id if id == TypeId::of::<i32>() => Some(&I32),
        _ => None,
    }
}

/// Whether a value of this type travels in the message itself.
#[inline]
fn is_number<T: 'static>() -> bool {
    number_kind::<T>().is_some()
}

#[inline]
fn pack<T: 'static>(value: T) -> u64 {
    if !is_number::<T>() {
        return Box::into_raw(Box::new(value)) as usize as u64;
    }
    let mut word = 0_u64;
    // The word is as large as a number of this type, or larger, and as well aligned.
    unsafe { (&mut word as *mut u64).cast::<T>().write(value) };
    word
}

/// The value that `pack` has put there, which is taken out once.
#[inline]
unsafe fn unpack<T: 'static>(word: u64) -> T {
    if is_number::<T>() {
        (&word as *const u64).cast::<T>().read()
    } else {
        *Box::from_raw(word as usize as *mut T)
    }
}

unsafe fn drop_value<T: 'static>(word: u64) {
    drop(unpack::<T>(word));
}

// Each payload is made of bytes, or of a value whose type is `Send`.
unsafe impl Send for Payload {}

impl Payload {
    /// A payload of any value that may go to another thread.
    ///
    /// ```
    /// let payload = varukoni_ports::Payload::new((1, "one"));
    /// assert!(payload.downcast::<(i32, &str)>().is_ok());
    /// ```
    #[inline]
    pub fn new<T: Send + 'static>(value: T) -> Payload {
        let kind = number_kind::<T>().unwrap_or(KindOf::<T>::KIND);
        Payload {
            body: pack(value),
            length: kind as *const Kind as usize as u64,
            form: Form::Value,
        }
    }

    /// The bytes, where it has been made of bytes.
    ///
    /// ```
    /// assert_eq!(varukoni_ports::Payload::new(7_u64).as_bytes(), None);
    /// ```
    pub fn as_bytes(&self) -> Option<&[u8]> {
        // A payload of bytes owns its slice until it is dropped or taken apart.
        self.is_bytes().then(|| unsafe { &*self.slice() })
    }

    /// The bytes, or the payload itself where it is made of something else.
    ///
    /// ```
    /// let payload = varukoni_ports::Payload::from("text");
    /// assert_eq!(payload.into_bytes().unwrap(), b"text");
    /// ```
    pub fn into_bytes(self) -> Result<Vec<u8>, Payload> {
        if !self.is_bytes() {
            return Err(self);
        }
        let payload = ManuallyDrop::new(self);
        // The slice was a boxed one, and it is taken out once.
        Ok(unsafe { Box::from_raw(payload.slice()) }.into_vec())
    }

    /// The value, or the payload itself where it is none of that type.
    ///
    /// ```
    /// let payload = varukoni_ports::Payload::new(7_u64);
    /// let payload = payload.downcast::<String>().unwrap_err();
    /// assert_eq!(payload.downcast::<u64>().unwrap(), 7);
    /// ```
    #[inline]
    pub fn downcast<T: Send + 'static>(self) -> Result<T, Payload> {
        if self.is_bytes() || !self.kind().is_of::<T>() {
            return Err(self);
        }
        let payload = ManuallyDrop::new(self);
        // It was made of a value of this type, which is taken out once.
        Ok(unsafe { unpack(payload.body) })
    }

    #[inline]
    fn is_bytes(&self) -> bool {
        self.form == Form::Bytes
    }

    #[inline]
    fn slice(&self) -> *mut [u8] {
        ptr::slice_from_raw_parts_mut(self.body as usize as *mut u8, self.length as usize)
    }

    /// Of a payload that isn't made of bytes.
    #[inline]
    fn kind(&self) -> &'static Kind {
        // `new` has put the address of a static or of a constant there.
        unsafe { &*(self.length as usize as *const Kind) }
    }

    /// The payload as words of a message: of the third, which has the address of the ports, the
    /// lowest bit says whether it is bytes.
    #[inline]
    pub(crate) fn into_words(self, ports: u64) -> Words {
        let payload = ManuallyDrop::new(self);
        Words::new(payload.body, payload.length, ports | payload.form as u64)
    }

    /// The payload that `into_words` has put there, which is taken out once.
    #[inline]
    pub(crate) unsafe fn from_words(words: Words) -> Payload {
        Payload {
            body: words.body,
            length: words.length,
            form: match words.ports & 1 {
                0 => Form::Value,
                _ => Form::Bytes,
            },
        }
    }
}

/// The address of the ports that `into_words` was given.
#[inline]
pub(crate) fn address_of_ports(words: &Words) -> u64 {
    words.ports & !1
}

impl Drop for Payload {
    fn drop(&mut self) {
        // Both are owned until the payload is dropped or taken apart.
        unsafe {
            if self.is_bytes() {
                drop(Box::from_raw(self.slice()));
            } else {
                (self.kind().drop)(self.body);
            }
        }
    }
}

impl From<Vec<u8>> for Payload {
    fn from(bytes: Vec<u8>) -> Payload {
        let length = bytes.len() as u64;
        let body = Box::into_raw(bytes.into_boxed_slice()).cast::<u8>() as usize as u64;
        Payload {
            body,
            length,
            form: Form::Bytes,
        }
    }
}

impl From<&[u8]> for Payload {
    fn from(bytes: &[u8]) -> Payload {
        bytes.to_vec().into()
    }
}

impl<const N: usize> From<&[u8; N]> for Payload {
    fn from(bytes: &[u8; N]) -> Payload {
        bytes.to_vec().into()
    }
}

impl From<String> for Payload {
    fn from(text: String) -> Payload {
        text.into_bytes().into()
    }
}

impl From<&str> for Payload {
    fn from(text: &str) -> Payload {
        text.as_bytes().into()
    }
}

impl From<u64> for Payload {
    #[inline]
    fn from(number: u64) -> Payload {
        Payload::new(number)
    }
}

impl fmt::Debug for Payload {
    fn fmt(&self, out: &mut fmt::Formatter<'_>) -> fmt::Result {
        match self.as_bytes() {
            Some(bytes) => write!(out, "Payload({} bytes)", bytes.len()),
            None => write!(out, "Payload({})", (self.kind().name)()),
        }
    }
}
