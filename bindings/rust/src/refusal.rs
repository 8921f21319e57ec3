//! Why a call was refused.

use core::ffi::c_int;
use core::fmt;

/// The result of a call of this crate.
pub type Result<T, E = Refusal> = core::result::Result<T, E>;

const OK: c_int = 0;
const NOTHING: c_int = 108;

macro_rules! refusals {
    ($($(#[$doc:meta])* $name:ident = $number:literal, $text:literal;)*) => {
        /// Why a call was refused. A refused call changed nothing, unless its documentation says
        /// otherwise.
        ///
        /// ```
        /// use markring::{Events, Node, Refusal};
        ///
        /// # fn main() -> markring::Result<()> {
        /// let node = Node::new(2, 4, 16, 0)?;
        /// let refusal = node.word(0).unwrap_err();
        /// assert_eq!(refusal, Refusal::EmptyRegister);
        /// assert_eq!(refusal.number(), 4);
        /// assert_eq!(refusal.to_string(), "the register is empty");
        /// # Ok(())
        /// # }
        /// ```
        #[derive(Clone, Copy, Debug, PartialEq, Eq, Hash, PartialOrd, Ord)]
        #[non_exhaustive]
        #[repr(u8)]
        pub enum Refusal {
            $($(#[$doc])* $name = $number,)*
        }

        impl Refusal {
            // The refusal with this number.
            fn from_number(number: c_int) -> Option<Self> {
                match number {
                    $($number => Some(Refusal::$name),)*
                    _ => None,
                }
            }

            // What the refusal says.
            fn text(self) -> &'static str {
                match self {
                    $(Refusal::$name => $text,)*
                }
            }
        }
    };
}

refusals! {
    /// An allocation failed.
    Memory = 1, "out of memory";
    /// The node has no free slot and no fresh one.
    ArenaFull = 2, "the node has no slot left";
    /// There is no register with that number, or [`Roots`](crate::Roots) has none left.
    NoRegister = 3, "there is no such register";
    /// The register is empty, but a reference is needed.
    EmptyRegister = 4, "the register is empty";
    /// The object is on another node.
    Remote = 5, "the object is on another node";
    /// The object is on this node.
    Local = 6, "the object is on this node";
    /// There is no node with that number, or it isn't another node.
    NoNode = 7, "there is no such node";
    /// No letter waits.
    NoLetter = 8, "no letter waits";
    /// The object has no such place, or no object can have it, or the object isn't live.
    NoField = 9, "the object has no such place";
    /// The object would have more places than the space allows, or the letter more references.
    TooManyFields = 10, "the object would have too many places";
    /// The letter is for the node itself.
    SelfSend = 11, "the letter is for the node itself";
    /// The link has no number left for the message.
    LinkSpent = 12, "the link has no number left";
    /// No cycle number is left.
    CyclesSpent = 13, "no cycle number is left";
    /// Only node 0 may do this.
    NotDirector = 14, "only node 0 may do this";
    /// The last cycle isn't swept and reported everywhere.
    CycleRunning = 15, "the last cycle isn't swept everywhere";
    /// There is nothing for this step to do.
    NothingToDo = 16, "there is nothing to do";
    /// The message is more than a window past the last one received.
    OutOfOrder = 17, "the message is beyond the window";
    /// The acknowledged message was never released.
    AckBeyond = 18, "the acknowledged message was never released";
    /// The bytes don't spell a frame.
    BadFrame = 19, "the bytes aren't a frame";
    /// The frame isn't for this node, this space or this moment.
    WrongNode = 20, "the frame isn't for this node, this space or this moment";
    /// The bytes don't spell a saved node.
    BadImage = 21, "the bytes aren't an image";
    /// The image would exceed 67,108,864 bytes. In a wide space there is no limit.
    ImageTooLarge = 22, "the image would be too large";
    /// A cell's disk failed.
    Disk = 23, "the cell's disk failed";
    /// A cell's disk or a reopening failed, and no reopening has succeeded since.
    Closed = 24, "the cell is closed";
    /// An object or a letter would have more bytes than the space allows; in a plain space, any.
    TooManyBytes = 25, "the object would have too many bytes";
    /// The object doesn't have all of these bytes.
    NoBytes = 26, "the object doesn't have these bytes";
    /// The object isn't marked yet, and its node marks: try again once marking has ended.
    NotNow = 27, "the object isn't marked yet";
    /// The space is open already.
    InUse = 102, "the space is open already";
    /// The letter has more bytes than there is room for. It stays.
    ShortBuffer = 103, "the letter has more bytes than there is room for";
    /// An argument is out of range.
    BadArgument = 104, "an argument is out of range";
    /// An image is of another node or of a space of another shape.
    WrongDisks = 105, "an image is of another node or another space";
    /// The mark isn't that of the last image or batch.
    WrongMark = 106, "the mark isn't that of the last image or batch";
    /// As many messages on the link as the node's limit allows aren't acknowledged.
    Congested = 107, "the link is congested";
    /// The images of two nodes aren't of one moment.
    Ages = 109, "the images of two nodes aren't of one moment";
    /// There is no log of the events since the last image or batch, or that isn't kept yet: take an
    /// image.
    NoLog = 110, "there is no log: take an image";
}

impl Refusal {
    /// The number of the refusal: 1 to 27 as in the rules of the space, and from 101 on those of
    /// the library.
    #[must_use]
    pub const fn number(self) -> u8 {
        self as u8
    }
}

impl fmt::Display for Refusal {
    fn fmt(&self, f: &mut fmt::Formatter<'_>) -> fmt::Result {
        f.write_str(self.text())
    }
}

#[cfg(feature = "std")]
impl std::error::Error for Refusal {}

// Turns a status into a result.
//
// Panics if no refusal has that number, since then library and crate don't belong together.
pub(crate) fn checked(status: c_int) -> Result<()> {
    if status == OK {
        return Ok(());
    }
    match Refusal::from_number(status) {
        Some(refusal) => Err(refusal),
        None => panic!("the library returned the status {status}, which this crate doesn't know"),
    }
}

// Turns a status into a result; `false` means that there is nothing.
pub(crate) fn found(status: c_int) -> Result<bool> {
    if status == NOTHING {
        return Ok(false);
    }
    checked(status).map(|()| true)
}

// Turns a status into a result, for what an object has: if there is no object, it hasn't it.
pub(crate) fn there(status: c_int) -> Result<()> {
    if found(status)? {
        Ok(())
    } else {
        Err(Refusal::NoField)
    }
}
