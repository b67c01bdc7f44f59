//! A safe wrapper of the C library of the client's rule: see README.md.
//!
//! The types are those of `arpki.h`, field by field. A slice of Rust meets what the header asks of a pointer and its
//! length, so the functions here are safe to call with any values, on a thread with as much stack left as the header
//! says, and not from a signal handler or in the child of a fork of a process that has threads: these the header asks of
//! the caller.

/// A public key of LMS, 56 bytes.
pub type Key = [u8; 56];

/// The next key of a party, as `Client::learn` found it.
#[repr(C)]
#[derive(Clone, Copy, Debug, Default)]
pub struct Entry {
    pub generation: u32,
    pub number: u16,
    pub role: u16,
    pub key: Bytes<56>,
}

/// An array of bytes that is zero by default.
#[repr(transparent)]
#[derive(Clone, Copy, Debug)]
pub struct Bytes<const N: usize>(pub [u8; N]);

impl<const N: usize> Default for Bytes<N> {
    fn default() -> Self {
        Bytes([0; N])
    }
}

#[repr(C)]
struct Keys {
    logs: *const Key,
    logs_len: usize,
    authorities: *const Key,
    authorities_len: usize,
    learnt: *const Entry,
    learnt_len: usize,
    quorum: usize,
}

#[repr(C)]
struct Question {
    name: *const u8,
    name_len: usize,
    confirmation: *const u8,
    confirmation_len: usize,
    epoch: u64,
    age: u64,
}

#[repr(C)]
#[derive(Default)]
struct RawAnswer {
    epoch: u64,
    serial: u64,
    subject: Bytes<56>,
    certificate: Bytes<32>,
    root: Bytes<32>,
    outcome: u32,
    check: u32,
}

#[repr(C)]
#[derive(Default)]
struct RawFollowed {
    answer: RawAnswer,
    first_len: usize,
    links: usize,
    keep: u32,
    first: Bytes<412>,
}

#[repr(C)]
#[derive(Default)]
struct RawLesson {
    entry: Entry,
    outcome: u32,
    check: u32,
}

#[link(name = "arpki", kind = "static")]
extern "C" {
    fn arpki_judge(keys: *const Keys, question: *const Question, answer: *mut RawAnswer) -> u32;
    fn arpki_connect(
        keys: *const Keys, question: *const Question, challenge: *const [u8; 32],
        response: *const u8, response_len: usize, answer: *mut RawAnswer,
    ) -> u32;
    fn arpki_follow(
        keys: *const Keys, question: *const Question, pin: *const u8, pin_len: usize,
        links: *const u8, links_len: usize, followed: *mut RawFollowed,
    ) -> u32;
    fn arpki_learn(keys: *const Keys, note: *const u8, note_len: usize, lesson: *mut RawLesson) -> u32;
}

/// What a client makes of a confirmation, or of a server.
#[derive(Clone, Debug)]
pub enum Answer {
    /// Go on with this subject key, and with no other.
    Accepted { subject: Key, serial: u64, certificate: [u8; 32], epoch: u64, root: [u8; 32] },
    /// The name has no certificate.
    Absent { epoch: u64, root: [u8; 32] },
    /// The number of the first check that fails, 1 to 11.
    Refused(u32),
    /// The server has not the key: the number of the first condition of a signature that fails, 1 to 5.
    NoPossession(u32),
    /// Memory ran out.
    NoMemory,
    /// What is wrong with the keys, 1 to 6.
    BadKeys(u32),
    /// What `arpki_follow` tells beside these: the outcome, 6 to 14, the number of what fails, and how many links hold.
    NotFollowed { outcome: u32, check: u32, links: usize },
}

impl From<RawAnswer> for Answer {
    fn from(raw: RawAnswer) -> Answer {
        let (epoch, root) = (raw.epoch, raw.root.0);
        match raw.outcome {
            0 => Answer::Accepted {
                subject: raw.subject.0, serial: raw.serial, certificate: raw.certificate.0, epoch, root,
            },
            1 => Answer::Absent { epoch, root },
            2 => Answer::Refused(raw.check),
            3 => Answer::NoMemory,
            4 => Answer::BadKeys(raw.check),
            5 => Answer::NoPossession(raw.check),
            outcome => Answer::NotFollowed { outcome, check: raw.check, links: 0 },
        }
    }
}

/// What is asked of a confirmation: of which name, in which epoch, and how many epochs old it may be.
#[derive(Clone, Copy, Debug)]
pub struct Asked<'a> {
    pub name: &'a [u8],
    pub confirmation: &'a [u8],
    pub epoch: u64,
    pub age: u64,
}

impl Asked<'_> {
    fn question(&self) -> Question {
        Question {
            name: self.name.as_ptr(),
            name_len: self.name.len(),
            confirmation: self.confirmation.as_ptr(),
            confirmation_len: self.confirmation.len(),
            epoch: self.epoch,
            age: self.age,
        }
    }
}

/// Why nothing new was learnt: the outcome of `arpki_learn`, 1 to 7, and the number of what fails.
#[derive(Clone, Copy, Debug, PartialEq, Eq)]
pub struct NotLearnt {
    pub outcome: u32,
    pub check: u32,
}

/// What a client trusts. Store `learnt` as safely as the keys, and in its order.
#[derive(Clone, Debug)]
pub struct Client {
    pub logs: Vec<Key>,
    pub authorities: Vec<Key>,
    pub learnt: Vec<Entry>,
    pub quorum: usize,
}

impl Client {
    fn keys(&self) -> Keys {
        Keys {
            logs: self.logs.as_ptr(),
            logs_len: self.logs.len(),
            authorities: self.authorities.as_ptr(),
            authorities_len: self.authorities.len(),
            learnt: self.learnt.as_ptr(),
            learnt_len: self.learnt.len(),
            quorum: self.quorum,
        }
    }

    /// Judges a confirmation of a name.
    pub fn judge(&self, asked: &Asked) -> Answer {
        let mut raw = RawAnswer::default();
        // SAFETY: each pointer is of a live value or slice with its length, and `raw` is of this call alone.
        unsafe { arpki_judge(&self.keys(), &asked.question(), &mut raw) };
        raw.into()
    }

    /// The same of a server, by its response to a challenge that was drawn for this connection alone.
    pub fn connect(&self, asked: &Asked, challenge: &[u8; 32], response: &[u8]) -> Answer {
        let mut raw = RawAnswer::default();
        // SAFETY: as in `judge`.
        unsafe {
            arpki_connect(&self.keys(), &asked.question(), challenge, response.as_ptr(), response.len(), &mut raw);
        }
        raw.into()
    }

    /// Judges a confirmation by the pin of its name, no bytes where it has none, and by the bytes of links. The pin is
    /// then what to store.
    pub fn follow(&self, asked: &Asked, pin: &mut Vec<u8>, links: &[u8]) -> Answer {
        let mut raw = RawFollowed::default();
        // SAFETY: as in `judge`.
        unsafe {
            arpki_follow(
                &self.keys(), &asked.question(), pin.as_ptr(), pin.len(), links.as_ptr(), links.len(), &mut raw,
            );
        }
        match raw.keep {
            1 => pin.extend_from_slice(&raw.first.0[..raw.first_len]),
            2 => pin.extend_from_slice(links),
            _ => {}
        }
        match raw.answer.into() {
            Answer::NotFollowed { outcome, check, .. } => Answer::NotFollowed { outcome, check, links: raw.links },
            answer => answer,
        }
    }

    /// Learns from the bytes of a RollNote: keeps its entry, where its key is new.
    pub fn learn(&mut self, note: &[u8]) -> Result<(), NotLearnt> {
        let mut raw = RawLesson::default();
        // SAFETY: as in `judge`.
        unsafe { arpki_learn(&self.keys(), note.as_ptr(), note.len(), &mut raw) };
        match raw.outcome {
            0 => Ok(self.learnt.push(raw.entry)),
            outcome => Err(NotLearnt { outcome, check: raw.check }),
        }
    }
}
