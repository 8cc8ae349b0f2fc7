//! The Notchbadger kit from Rust: sealing, and tape cartridges as sealed images, over the kit's static library, in which every function is
//! proved.
//!
//! Build with the environment variable NOTCHBADGER_LIB naming the folder of libnotchbadger.a. The crate checks no length itself: the kit
//! does, and answers a wrong one with a [`Cause`]. Nothing here panics.
//!
//! The owner's duty: no nonce may come twice under a key. For cartridges that means a new recording number for each recording, and never
//! going on from an old state; a [`State`] is therefore given away to each call and comes back in its answer.
//!
//! ```
//! use notchbadger::{Cartridge, Reply, State, BLOCK_BYTES};
//!
//! let key = b"192-bit Secret Key value";
//! let mut image = [0; 8 * BLOCK_BYTES];
//! // Cartridge 7, recording 2026, early warning in the last 3 blocks.
//! let mut state = State::start(7, 2026, 3, &mut image)?;
//! loop {
//!     let wrote = state.record(key, b"what the drive said", &mut image);
//!     state = wrote.state;
//!     match wrote.reply {
//!         Reply::Plain => continue,
//!         Reply::Warned => break,
//!         Reply::Refused(cause) => return Err(cause),
//!     }
//! }
//! assert_eq!(state.close(key, &mut image).reply, Reply::Plain);
//! image[2 * BLOCK_BYTES + 40] ^= 1;
//! for visit in Cartridge::new(key, 7, 2026, &image).walk() {
//!     let visit = visit?;
//!     println!("{} {:?}", visit.position, visit.outcome);
//! }
//! # Ok::<(), notchbadger::Cause>(())
//! ```
#![deny(missing_docs)]
#![deny(unsafe_code)]
#![deny(clippy::indexing_slicing, clippy::unwrap_used, clippy::expect_used, clippy::panic, clippy::arithmetic_side_effects)]

use std::error::Error;
use std::fmt;
use std::iter::FusedIterator;

#[allow(unsafe_code)]
mod raw;

/// Bytes of the permutation's state.
pub const STATE_BYTES: usize = 64;
/// Bytes of the state that a block operation works against.
pub const RATE_BYTES: usize = 32;
/// Bytes of a key.
pub const KEY_BYTES: usize = 24;
/// Bytes of a nonce.
pub const NONCE_BYTES: usize = 16;
/// Bytes of a tag.
pub const TAG_BYTES: usize = 16;
/// The most bytes that a block operation takes.
pub const OPERATION_MAX: usize = 65536;
/// The most associated data.
pub const DATA_MAX: usize = 65536;
/// The longest message.
pub const MESSAGE_MAX: usize = 65520;
/// The domain byte of the key.
pub const DOMAIN_KEY: u8 = 0x10;
/// The domain byte of the nonce.
pub const DOMAIN_NONCE: u8 = 0x20;
/// The domain byte of associated data.
pub const DOMAIN_DATA: u8 = 0x40;
/// The domain byte of a message.
pub const DOMAIN_MESSAGE: u8 = 0x50;
/// The domain byte of a tag.
pub const DOMAIN_TAG: u8 = 0x60;
/// Bytes of a block of the image.
pub const BLOCK_BYTES: usize = 512;
/// Bytes of a record that a block has room for.
pub const BLOCK_PAYLOAD: usize = 488;
/// The fewest blocks of an image.
pub const IMAGE_FEWEST: usize = 4;
/// The most blocks of an image.
pub const IMAGE_MOST: usize = 128;
/// The longest record, in bytes.
pub const RECORD_MAX: usize = 31232;
/// The longest record, in blocks.
pub const RECORD_BLOCKS: usize = 64;

// The header's codes of answers.
const DONE: u8 = 0;
const PLAIN: u8 = 0;
const WARNED: u8 = 1;
const GOT_RECORD: u8 = 0;
const GOT_MARK: u8 = 1;
const GOT_END: u8 = 2;
const GOT_BAD: u8 = 3;
const GOT_STRAY: u8 = 4;
const GOT_CUT: u8 = 5;
const SPACED_AT: u8 = 0;
const SPACED_SHORT: u8 = 1;

/// Why a call was refused, or why opening failed. But for [`Cause::WrongTag`], which leaves the receiving buffer all zero, every lent buffer
/// is as it was.
#[derive(Clone, Copy, Debug, PartialEq, Eq, Hash)]
pub enum Cause {
    /// 1: an image that is not 4 to 128 whole blocks.
    WrongImage,
    /// 2: a key, a nonce or a buffer of a wrong length.
    WrongLength,
    /// 3: a warning zone outside 1 to c - 1, for an image of c blocks.
    WrongZone,
    /// 4: a record of no bytes or above [`RECORD_MAX`].
    WrongRecord,
    /// 5: an item that does not fit before the held block.
    NoRoom,
    /// 6: a recording that is closed.
    Closed,
    /// 7: a tag that does not fit.
    WrongTag,
    /// 8: a position or a state not lawful for the image.
    Unlawful,
    /// 9: more bytes than the longest that is taken.
    AboveLimit,
    /// An answer that the header does not have: the archive is of another version.
    Unknown(u8),
}

impl Cause {
    /// The header's number.
    #[must_use]
    pub fn number(self) -> u8 {
        match self {
            Cause::WrongImage => 1,
            Cause::WrongLength => 2,
            Cause::WrongZone => 3,
            Cause::WrongRecord => 4,
            Cause::NoRoom => 5,
            Cause::Closed => 6,
            Cause::WrongTag => 7,
            Cause::Unlawful => 8,
            Cause::AboveLimit => 9,
            Cause::Unknown(number) => number,
        }
    }

    fn of(number: u8) -> Cause {
        match number {
            1 => Cause::WrongImage,
            2 => Cause::WrongLength,
            3 => Cause::WrongZone,
            4 => Cause::WrongRecord,
            5 => Cause::NoRoom,
            6 => Cause::Closed,
            7 => Cause::WrongTag,
            8 => Cause::Unlawful,
            9 => Cause::AboveLimit,
            _ => Cause::Unknown(number),
        }
    }
}

impl fmt::Display for Cause {
    fn fmt(&self, f: &mut fmt::Formatter<'_>) -> fmt::Result {
        f.write_str(match self {
            Cause::WrongImage => "the image is not 4 to 128 whole blocks",
            Cause::WrongLength => "a key, a nonce or a buffer has a wrong length",
            Cause::WrongZone => "the warning zone is outside the image",
            Cause::WrongRecord => "the record has no bytes or too many",
            Cause::NoRoom => "no room before the block held for end of data",
            Cause::Closed => "the recording is closed",
            Cause::WrongTag => "the tag does not fit",
            Cause::Unlawful => "the position or the state is not lawful for the image",
            Cause::AboveLimit => "more bytes than are taken",
            Cause::Unknown(_) => "an answer that the header does not have",
        })
    }
}

impl Error for Cause {}

fn done(number: u8) -> Result<(), Cause> {
    if number == DONE {
        Ok(())
    } else {
        Err(Cause::of(number))
    }
}

/// Runs the permutation over the state of [`STATE_BYTES`], in place.
pub fn permute(state: &mut [u8]) -> Result<(), Cause> {
    done(raw::permute(state))
}

/// Undoes [`permute`].
pub fn permute_back(state: &mut [u8]) -> Result<(), Cause> {
    done(raw::permute_back(state))
}

/// Runs one round of the permutation, with a round key of [`STATE_BYTES`].
pub fn round(state: &mut [u8], key: &[u8]) -> Result<(), Cause> {
    done(raw::round(state, key))
}

/// Undoes [`round`] with the same key.
pub fn round_back(state: &mut [u8], key: &[u8]) -> Result<(), Cause> {
    done(raw::round_back(state, key))
}

/// The version of the archive that is linked: the header's `NB_VERSION` when it was built.
#[must_use]
pub fn version() -> u32 {
    raw::version()
}

/// The substitution table's entry for a byte.
#[must_use]
pub fn minibox(x: u8) -> u8 {
    raw::minibox(x)
}

/// Takes bytes into the state and closes the operation.
pub fn put(state: &mut [u8], bytes: &[u8], domain: u8) -> Result<(), Cause> {
    done(raw::put(state, bytes, domain))
}

/// Fills `out` from the state and closes the operation.
pub fn get(state: &mut [u8], out: &mut [u8], domain: u8) -> Result<(), Cause> {
    done(raw::get(state, out, domain))
}

/// Encrypts the message into `out`, of the same length, and closes the operation.
pub fn enc(state: &mut [u8], message: &[u8], out: &mut [u8], domain: u8) -> Result<(), Cause> {
    done(raw::enc(state, message, out, domain))
}

/// Decrypts the ciphertext into `out`, of the same length, and closes the operation.
pub fn dec(state: &mut [u8], cipher: &[u8], out: &mut [u8], domain: u8) -> Result<(), Cause> {
    done(raw::dec(state, cipher, out, domain))
}

/// Seals the message: `out`, longer by [`TAG_BYTES`], gets its ciphertext and the tag. The associated data is covered and not stored. A
/// nonce must never come twice under one key.
pub fn seal(key: &[u8], nonce: &[u8], data: &[u8], message: &[u8], out: &mut [u8]) -> Result<(), Cause> {
    done(raw::seal(key, nonce, data, message, out))
}

/// Opens what [`seal`] made: `out`, shorter by [`TAG_BYTES`], gets the message, or zeros where the tag does not fit.
pub fn open(key: &[u8], nonce: &[u8], data: &[u8], sealed: &[u8], out: &mut [u8]) -> Result<(), Cause> {
    done(raw::open(key, nonce, data, sealed, out))
}

/// What the writer keeps of a recording. It can't be copied: each call takes it and gives back the one to go on from, so an old state is
/// gone.
///
/// ```compile_fail,E0382
/// # let (key, mut image) = ([0; 24], [0; 2048]);
/// let old = notchbadger::State::start(7, 2027, 1, &mut image)?;
/// let wrote = old.mark(&key, &mut image);
/// let again = old.record(&key, b"the mark's nonce again", &mut image);
/// # Ok::<(), notchbadger::Cause>(())
/// ```
#[derive(Debug, PartialEq, Eq)]
#[must_use = "a recording goes on from its last state alone"]
pub struct State {
    raw: raw::NbState,
}

impl State {
    /// Begins a recording: fills the image with zeros. The recording number must be new for this cartridge id under the key.
    pub fn start(id: u32, recording: u64, zone: usize, image: &mut [u8]) -> Result<State, Cause> {
        let wrote = raw::start(id, recording, zone, image);
        match Reply::of(&wrote) {
            Reply::Refused(cause) => Err(cause),
            _ => Ok(State { raw: wrote.state }),
        }
    }

    /// A state that was kept elsewhere, as in a file beside the image. It must be the last one of its recording: going on from an older one
    /// uses nonces twice, and no call can see that. Of a state that was kept without its file marks, `marks` is what
    /// [`Cartridge::report`] counts.
    pub fn restored(id: u32, recording: u64, capacity: usize, zone: usize, position: usize, closed: bool, marks: usize) -> State {
        let closed = u8::from(closed);
        State { raw: raw::NbState { id, recording, capacity, zone, position, closed, marks } }
    }

    /// Writes a record of 1 to [`RECORD_MAX`] bytes. It is warned exactly if the position behind it is above the capacity less the zone.
    pub fn record(self, key: &[u8], bytes: &[u8], image: &mut [u8]) -> Wrote {
        Wrote::of(raw::record(self.raw, key, bytes, image))
    }

    /// Writes a file mark. As a record it is warned exactly if the position behind it is above the capacity less the zone.
    ///
    /// ```
    /// # use notchbadger::{Reply, State, BLOCK_PAYLOAD};
    /// # let (key, mut image) = ([0; 24], [0; 8 * 512]);
    /// // 8 blocks, of which the last 3 are the zone.
    /// let state = State::start(7, 2026, 3, &mut image)?;
    /// let wrote = state.record(&key, &[0; 5 * BLOCK_PAYLOAD], &mut image);
    /// assert_eq!((wrote.reply, wrote.state.position()), (Reply::Plain, 5));
    /// // The mark that closes the file stands in the zone: no other file should begin here.
    /// let wrote = wrote.state.mark(&key, &mut image);
    /// assert_eq!((wrote.reply, wrote.state.position()), (Reply::Warned, 6));
    /// assert_eq!(wrote.state.close(&key, &mut image).reply, Reply::Plain);
    /// # Ok::<(), notchbadger::Cause>(())
    /// ```
    pub fn mark(self, key: &[u8], image: &mut [u8]) -> Wrote {
        Wrote::of(raw::mark(self.raw, key, image))
    }

    /// Writes the end of data and closes the recording. It is never warned.
    pub fn close(self, key: &[u8], image: &mut [u8]) -> Wrote {
        Wrote::of(raw::close(self.raw, key, image))
    }

    /// The cartridge id.
    #[must_use]
    pub fn id(&self) -> u32 {
        self.raw.id
    }

    /// The recording number.
    #[must_use]
    pub fn recording(&self) -> u64 {
        self.raw.recording
    }

    /// The blocks of the image.
    #[must_use]
    pub fn capacity(&self) -> usize {
        self.raw.capacity
    }

    /// The blocks of the early warning.
    #[must_use]
    pub fn zone(&self) -> usize {
        self.raw.zone
    }

    /// Where the next item begins.
    #[must_use]
    pub fn position(&self) -> usize {
        self.raw.position
    }

    /// Whether end of data was written.
    #[must_use]
    pub fn closed(&self) -> bool {
        self.raw.closed != 0
    }

    /// The file marks written so far: the number of the file that the writer is in. From a start on it is, without a walk, what
    /// [`Cartridge::report`] counts in the image as it stands.
    ///
    /// ```
    /// # use notchbadger::{Cartridge, State};
    /// # let (key, mut image) = ([0; 24], [0; 8 * 512]);
    /// let state = State::start(7, 2026, 3, &mut image)?;
    /// let state = state.record(&key, b"of file 0", &mut image).state;
    /// let state = state.mark(&key, &mut image).state;
    /// let state = state.record(&key, b"of file 1", &mut image).state;
    /// assert_eq!(state.marks(), 1);
    /// assert_eq!(Cartridge::new(&key, 7, 2026, &image).report()?.marks, 1);
    /// # Ok::<(), notchbadger::Cause>(())
    /// ```
    #[must_use]
    pub fn marks(&self) -> usize {
        self.raw.marks
    }
}

/// The writer's reply to an item.
#[derive(Clone, Copy, Debug, PartialEq, Eq)]
#[must_use = "an item may have been refused"]
pub enum Reply {
    /// Written.
    Plain,
    /// Written, and the position behind it is in the zone of the early warning. A record and a mark are warned alike; a closing never is.
    Warned,
    /// Not written.
    Refused(Cause),
}

impl Reply {
    fn of(wrote: &raw::NbWrote) -> Reply {
        match wrote.reply {
            PLAIN => Reply::Plain,
            WARNED => Reply::Warned,
            _ => Reply::Refused(Cause::of(wrote.number)),
        }
    }
}

/// The writer's answer: the state to go on from (the one that was given, where the item was refused) and the reply.
#[derive(Debug, PartialEq, Eq)]
#[must_use = "it has the state to go on from"]
pub struct Wrote {
    /// To go on from.
    pub state: State,
    /// To the item.
    pub reply: Reply,
}

impl Wrote {
    fn of(wrote: raw::NbWrote) -> Wrote {
        Wrote { reply: Reply::of(&wrote), state: State { raw: wrote.state } }
    }
}

/// What stands at a position.
#[derive(Clone, Copy, Debug, PartialEq, Eq)]
pub enum Outcome {
    /// A record of so many bytes.
    Record(usize),
    /// A file mark.
    Mark,
    /// The end of data.
    End,
    /// A block that does not open.
    Bad,
    /// A block from the middle of a record.
    Stray,
    /// A record that breaks off at this block.
    Cut(usize),
}

/// A read's answer.
#[derive(Clone, Copy, Debug, PartialEq, Eq)]
#[must_use]
pub struct Got {
    /// What was read.
    pub outcome: Outcome,
    /// Where to read on; may be the capacity.
    pub next: usize,
}

/// Where spacing over file marks ended.
#[derive(Clone, Copy, Debug, PartialEq, Eq)]
#[must_use]
pub enum Spaced {
    /// Behind the last mark that was asked for.
    At(usize),
    /// At the end of data, or at the capacity where none came.
    Short {
        /// The marks passed.
        marks: usize,
        /// Where it ended.
        position: usize,
    },
}

/// The outcomes of a walk, counted.
#[derive(Clone, Copy, Debug, Default, PartialEq, Eq)]
#[must_use]
pub struct Tally {
    /// Whole records.
    pub records: usize,
    /// File marks.
    pub marks: usize,
    /// Ends of data: 0 or 1.
    pub ends: usize,
    /// Blocks that do not open.
    pub bads: usize,
    /// Blocks from the middle of a record.
    pub strays: usize,
    /// Records that break off.
    pub cuts: usize,
}

/// A part of lent memory; empty where it would not lie within.
fn part_of(bytes: &[u8], part: raw::NbPart) -> &[u8] {
    bytes.get(part.offset..).and_then(|rest| rest.get(..part.length)).unwrap_or(&[])
}

/// The record that [`Cartridge::read`] left in the buffer, by its length; empty where the buffer is shorter.
#[must_use]
pub fn record_part(buffer: &[u8], length: usize) -> &[u8] {
    part_of(buffer, raw::record_part(buffer, length))
}

/// Block p as it stands in the image, unopened.
pub fn look(image: &[u8], p: usize) -> Result<&[u8], Cause> {
    done(raw::look_number(image, p))?;
    Ok(part_of(image, raw::look(image, p)))
}

/// A recording to be read: any image, with the key, the cartridge id and the recording number that its blocks must have been sealed under.
#[derive(Clone, Copy)]
pub struct Cartridge<'a> {
    key: &'a [u8],
    id: u32,
    recording: u64,
    image: &'a [u8],
}

impl<'a> Cartridge<'a> {
    /// Checks nothing: each call does.
    #[must_use]
    pub fn new(key: &'a [u8], id: u32, recording: u64, image: &'a [u8]) -> Cartridge<'a> {
        Cartridge { key, id, recording, image }
    }

    /// Reads at position p. The buffer has at least [`RECORD_MAX`] bytes: a record is left at its front, with zeros behind it.
    pub fn read(&self, p: usize, buffer: &mut [u8]) -> Result<Got, Cause> {
        let got = raw::read(self.key, self.id, self.recording, self.image, p, buffer);
        done(got.number)?;
        let outcome = match got.outcome {
            GOT_RECORD => Outcome::Record(got.data),
            GOT_MARK => Outcome::Mark,
            GOT_END => Outcome::End,
            GOT_BAD => Outcome::Bad,
            GOT_STRAY => Outcome::Stray,
            GOT_CUT => Outcome::Cut(got.data),
            other => return Err(Cause::Unknown(other)),
        };
        Ok(Got { outcome, next: got.next })
    }

    /// Reads on from position p past n file marks.
    pub fn space(&self, p: usize, n: usize) -> Result<Spaced, Cause> {
        let spaced = raw::space(self.key, self.id, self.recording, self.image, p, n);
        done(spaced.number)?;
        match spaced.kind {
            SPACED_AT => Ok(Spaced::At(spaced.position)),
            SPACED_SHORT => Ok(Spaced::Short { marks: spaced.marks, position: spaced.position }),
            other => Err(Cause::Unknown(other)),
        }
    }

    /// Counts the outcomes of the walk.
    pub fn report(&self) -> Result<Tally, Cause> {
        let tally = raw::report(self.key, self.id, self.recording, self.image);
        done(tally.number)?;
        Ok(Tally {
            records: tally.records,
            marks: tally.marks,
            ends: tally.ends,
            bads: tally.bads,
            strays: tally.strays,
            cuts: tally.cuts,
        })
    }

    /// Walks the image from its first block on.
    pub fn walk(&self) -> Walk<'a> {
        Walk { cartridge: *self, position: Some(0), buffer: vec![0; RECORD_MAX] }
    }
}

// The key is not shown.
impl fmt::Debug for Cartridge<'_> {
    fn fmt(&self, f: &mut fmt::Formatter<'_>) -> fmt::Result {
        f.debug_struct("Cartridge").field("id", &self.id).field("recording", &self.recording).finish_non_exhaustive()
    }
}

/// One read of a walk.
#[derive(Clone, Debug, PartialEq, Eq)]
#[must_use]
pub struct Visit {
    /// Where it was read.
    pub position: usize,
    /// What stands there.
    pub outcome: Outcome,
    /// The record's bytes; empty for every other outcome.
    pub record: Vec<u8>,
}

/// The reads from block 0 on, each at the next of the one before. It stops after the end of data, at the capacity and after a refusal, in no
/// more reads than blocks.
#[must_use = "a walk reads nothing until it is asked"]
pub struct Walk<'a> {
    cartridge: Cartridge<'a>,
    position: Option<usize>,
    buffer: Vec<u8>,
}

impl Iterator for Walk<'_> {
    type Item = Result<Visit, Cause>;

    fn next(&mut self) -> Option<Self::Item> {
        let position = self.position.take()?;
        let got = match self.cartridge.read(position, &mut self.buffer) {
            Ok(got) => got,
            Err(cause) => return Some(Err(cause)),
        };
        // At the end of data next is the position itself; else it has moved on.
        let capacity = self.cartridge.image.len() / BLOCK_BYTES;
        self.position = Some(got.next).filter(|&next| position < next && next < capacity);
        let record = match got.outcome {
            Outcome::Record(length) => record_part(&self.buffer, length).to_vec(),
            _ => Vec::new(),
        };
        Some(Ok(Visit { position, outcome: got.outcome, record }))
    }
}

impl FusedIterator for Walk<'_> {}

impl fmt::Debug for Walk<'_> {
    fn fmt(&self, f: &mut fmt::Formatter<'_>) -> fmt::Result {
        f.debug_struct("Walk").field("cartridge", &self.cartridge).field("position", &self.position).finish_non_exhaustive()
    }
}
