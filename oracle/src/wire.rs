//! Jobs and how they stand on the wire: big-endian 32-bit words, each job and each answer after its length.

use std::io::{Read, Write};

/// A box: origin and sides. A free section, or the box of a return.
#[derive(Clone, Copy, PartialEq, Eq, Debug)]
pub struct Section {
    pub at: [u32; 3],
    pub sides: [u32; 3],
}

/// A chamber and its free sections in the order of the store.
#[derive(Clone, PartialEq, Eq, Debug)]
pub struct Chamber {
    pub id: u32,
    pub sides: [u32; 3],
    pub free: Vec<Section>,
}

/// A rectangle; group 0 means none.
#[derive(Clone, Copy, PartialEq, Eq, Debug)]
pub struct Rectangle {
    pub id: u32,
    pub group: u32,
    pub sides: [u32; 3],
}

/// One job.
#[derive(Clone, PartialEq, Eq, Debug)]
pub enum Job {
    Try {
        section: Section,
        sides: [u32; 3],
    },
    Return {
        chambers: Vec<Chamber>,
        id: u32,
        part: Section,
    },
    Pack {
        chambers: Vec<Chamber>,
        rectangles: Vec<Rectangle>,
    },
    /// It is read and shown; the crate has no answer to it.
    Join {
        chambers: Vec<Chamber>,
        id: u32,
    },
}

const TRY: u32 = 1;
const RETURN: u32 = 2;
const PACK: u32 = 3;
const JOIN: u32 = 4;

/// No job and no answer in the domain is longer than this.
const LONGEST: u32 = 20_000;

impl Section {
    pub fn put(&self, words: &mut Vec<u32>) {
        words.extend(self.at);
        words.extend(self.sides);
    }
}

/// Appends the chamber records, and after them the counted sections of each chamber.
pub fn put_chambers(chambers: &[Chamber], words: &mut Vec<u32>) {
    for chamber in chambers {
        words.push(chamber.id);
        words.extend(chamber.sides);
        words.push(chamber.free.len() as u32);
    }
    for section in chambers.iter().flat_map(|chamber| &chamber.free) {
        section.put(words);
    }
}

impl Job {
    pub fn kind(&self) -> &'static str {
        match self {
            Job::Try { .. } => "try",
            Job::Return { .. } => "return",
            Job::Pack { .. } => "pack",
            Job::Join { .. } => "join",
        }
    }

    /// The words of the job, without the length before them.
    pub fn words(&self) -> Vec<u32> {
        let mut words = Vec::new();
        match self {
            Job::Try { section, sides } => {
                words.push(TRY);
                section.put(&mut words);
                words.extend(sides);
            }
            Job::Return { chambers, id, part } => {
                words.extend([RETURN, chambers.len() as u32]);
                put_chambers(chambers, &mut words);
                words.push(*id);
                part.put(&mut words);
            }
            Job::Pack {
                chambers,
                rectangles,
            } => {
                words.extend([PACK, chambers.len() as u32]);
                put_chambers(chambers, &mut words);
                words.push(rectangles.len() as u32);
                for rectangle in rectangles {
                    words.extend([rectangle.id, rectangle.group]);
                    words.extend(rectangle.sides);
                }
            }
            Job::Join { chambers, id } => {
                words.extend([JOIN, chambers.len() as u32]);
                put_chambers(chambers, &mut words);
                words.push(*id);
            }
        }
        words
    }

    /// The job that these words are, or what is wrong with them.
    pub fn of_words(words: &[u32]) -> Result<Job, String> {
        let mut rest = Words { words, next: 0 };
        let job = match rest.word()? {
            TRY => Job::Try {
                section: rest.section()?,
                sides: rest.three()?,
            },
            RETURN => Job::Return {
                chambers: rest.chambers()?,
                id: rest.word()?,
                part: rest.section()?,
            },
            PACK => Job::Pack {
                chambers: rest.chambers()?,
                rectangles: rest.rectangles()?,
            },
            JOIN => Job::Join {
                chambers: rest.chambers()?,
                id: rest.word()?,
            },
            other => return Err(format!("no kind of job has the number {other}")),
        };
        if rest.next != words.len() {
            return Err("words are left over at its end".to_string());
        }
        Ok(job)
    }
}

/// Words that are read one after the other.
pub struct Words<'a> {
    pub words: &'a [u32],
    pub next: usize,
}

impl Words<'_> {
    pub fn word(&mut self) -> Result<u32, String> {
        let word = self.words.get(self.next).copied().ok_or("it ends early")?;
        self.next += 1;
        Ok(word)
    }

    pub fn three(&mut self) -> Result<[u32; 3], String> {
        Ok([self.word()?, self.word()?, self.word()?])
    }

    pub fn section(&mut self) -> Result<Section, String> {
        Ok(Section {
            at: self.three()?,
            sides: self.three()?,
        })
    }

    fn chambers(&mut self) -> Result<Vec<Chamber>, String> {
        let number = self.word()?;
        self.chamber_records(number)
    }

    /// `number` chamber records and then their sections.
    pub fn chamber_records(&mut self, number: u32) -> Result<Vec<Chamber>, String> {
        let mut chambers = Vec::new();
        let mut counts = Vec::new();
        for _ in 0..number {
            chambers.push(Chamber {
                id: self.word()?,
                sides: self.three()?,
                free: Vec::new(),
            });
            counts.push(self.word()?);
        }
        for (chamber, count) in chambers.iter_mut().zip(counts) {
            for _ in 0..count {
                chamber.free.push(self.section()?);
            }
        }
        Ok(chambers)
    }

    fn rectangles(&mut self) -> Result<Vec<Rectangle>, String> {
        let number = self.word()?;
        (0..number)
            .map(|_| {
                Ok(Rectangle {
                    id: self.word()?,
                    group: self.word()?,
                    sides: self.three()?,
                })
            })
            .collect()
    }
}

/// Appends a job or an answer to a stream: its length, then its words.
pub fn put_stream(words: &[u32], stream: &mut Vec<u8>) {
    stream.extend((words.len() as u32).to_be_bytes());
    for word in words {
        stream.extend(word.to_be_bytes());
    }
}

/// Writes a job or an answer: its length, then its words.
pub fn write(words: &[u32], to: &mut impl Write) -> Result<(), String> {
    let mut stream = Vec::new();
    put_stream(words, &mut stream);
    to.write_all(&stream)
        .map_err(|error| format!("cannot write: {error}"))
}

/// Reads the next job or answer; none at the end of the stream.
pub fn read(from: &mut impl Read) -> Result<Option<Vec<u32>>, String> {
    let mut length = [0; 4];
    let mut got = 0;
    while got < length.len() {
        match from.read(&mut length[got..]) {
            Ok(0) if got == 0 => return Ok(None),
            Ok(0) => return Err("the stream ends inside a length".to_string()),
            Ok(more) => got += more,
            Err(error) => return Err(format!("cannot read: {error}")),
        }
    }
    let length = u32::from_be_bytes(length);
    if length > LONGEST {
        return Err(format!(
            "a length of {length} words, and none is above {LONGEST}"
        ));
    }
    let mut bytes = vec![0; 4 * length as usize];
    from.read_exact(&mut bytes)
        .map_err(|_| format!("the stream ends inside {length} words"))?;
    let words = bytes
        .chunks_exact(4)
        .map(|b| u32::from_be_bytes([b[0], b[1], b[2], b[3]]));
    Ok(Some(words.collect()))
}
