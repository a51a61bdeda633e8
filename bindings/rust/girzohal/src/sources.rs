use girzohal_sys::{File, Text};
use std::fmt;
use std::sync::{Mutex, PoisonError};

/// The unit in which labels count.
#[derive(Clone, Copy, Debug, Default, PartialEq, Eq)]
#[non_exhaustive]
pub enum Unit {
    /// Bytes of UTF-8, as `str` counts.
    #[default]
    Bytes,
    /// Characters, that is code points.
    Characters,
    /// Units of UTF-16, as JavaScript and language servers count: 2 for a character past U+FFFF, else 1.
    Utf16,
}

/// The files that reports are on: their names and sources, and the unit in which labels count.
///
/// They are laid out once and drawn from often: a draw adds only the texts of the reports. Threads may draw from the same
/// sources at once.
///
/// ```
/// use girzohal::{draw, Look, Report, Sources, Unit};
///
/// let mut sources = Sources::with_unit(Unit::Characters);
/// let file = sources.add("é.txt", "éé = 1\n");
/// let report = Report::error("oops").file(file).label(0..2, "two characters, four bytes");
/// assert!(draw(&sources, &[report], &Look::default())?.contains("é.txt:1:1"));
/// # Ok::<(), girzohal::DrawError>(())
/// ```
#[derive(Default)]
pub struct Sources {
    unit: Unit,
    /// The names and the sources, one after another.
    texts: String,
    files: Vec<File>,
    /// At each `BLOCK` bytes of the texts: how many units come before.
    marks: Vec<usize>,
    /// Copies of the texts, to which a draw adds those of its reports.
    rooms: Mutex<Vec<String>>,
}

/// The distance of marks in bytes.
const BLOCK: usize = 1024;

impl Sources {
    /// No files; labels count bytes.
    pub fn new() -> Sources {
        Sources::default()
    }

    /// No files; labels count in a unit.
    pub fn with_unit(unit: Unit) -> Sources {
        Sources {
            unit,
            ..Sources::default()
        }
    }

    /// Adds a file, and returns its index, by which reports name it: 0 for the first.
    ///
    /// A source has fewer than 4,294,967,295 bytes. With a longer one, each draw fails.
    pub fn add(&mut self, name: &str, source: &str) -> u32 {
        let index = u32::try_from(self.files.len()).unwrap_or(u32::MAX);
        let name = put(&mut self.texts, Some(name));
        let source = put(&mut self.texts, Some(source));
        self.files.push(File { name, source });
        self.set_marks();
        self.rooms = Mutex::default();
        index
    }

    /// How many files there are.
    pub fn len(&self) -> usize {
        self.files.len()
    }

    /// Whether there are no files.
    pub fn is_empty(&self) -> bool {
        self.files.is_empty()
    }

    /// The unit in which labels count.
    pub fn unit(&self) -> Unit {
        self.unit
    }

    pub(crate) fn files(&self) -> &[File] {
        &self.files
    }

    /// The texts of the files, with room for so many bytes more, which nobody else has meanwhile.
    pub(crate) fn take_room(&self, more: usize) -> String {
        let kept = self
            .rooms
            .lock()
            .unwrap_or_else(PoisonError::into_inner)
            .pop();
        let mut room = kept.unwrap_or_default();
        room.reserve(self.texts.len() + more - room.len());
        if room.is_empty() {
            room.push_str(&self.texts);
        }
        room
    }

    /// Keeps a room for the next draw.
    pub(crate) fn keep_room(&self, mut room: String) {
        room.truncate(self.texts.len());
        self.rooms
            .lock()
            .unwrap_or_else(PoisonError::into_inner)
            .push(room);
    }

    /// The byte of a file's source at an offset in units. `u32::MAX`, which is past the end of every source, if there is
    /// none: the library then says that it is no place.
    pub(crate) fn byte_of(&self, file: u32, offset: usize) -> u32 {
        let byte = match (self.unit, self.files.get(file as usize)) {
            (Unit::Bytes, _) | (_, None) => Some(offset),
            (_, Some(file)) => self.counted(file.source, offset),
        };
        byte.and_then(|byte| u32::try_from(byte).ok())
            .unwrap_or(u32::MAX)
    }

    fn counted(&self, source: Text, offset: usize) -> Option<usize> {
        let mark = source.start / BLOCK;
        let before = self.marks[mark] + self.units(mark * BLOCK, source.start);
        let wanted = before.checked_add(offset)?;
        let block = self.marks.partition_point(|&units| units <= wanted) - 1;
        let (mut at, mut units) = (block * BLOCK, self.marks[block]);
        while at < source.end && (units < wanted || !self.texts.is_char_boundary(at)) {
            units += self.units(at, at + 1);
            at += 1;
        }
        (units == wanted && at <= source.end).then(|| at - source.start)
    }

    /// How many units the characters have that start in a range of the texts.
    fn units(&self, start: usize, end: usize) -> usize {
        let units_of = |byte: &u8| match byte {
            0x80..=0xBF => 0,
            0xF0.. if self.unit == Unit::Utf16 => 2,
            _ => 1,
        };
        self.texts.as_bytes()[start..end].iter().map(units_of).sum()
    }

    fn set_marks(&mut self) {
        if self.unit == Unit::Bytes {
            return;
        }
        for block in self.marks.len()..=self.texts.len() / BLOCK {
            let before = match block {
                0 => 0,
                _ => self.marks[block - 1] + self.units((block - 1) * BLOCK, block * BLOCK),
            };
            self.marks.push(before);
        }
    }
}

impl Clone for Sources {
    fn clone(&self) -> Sources {
        Sources {
            unit: self.unit,
            texts: self.texts.clone(),
            files: self.files.clone(),
            marks: self.marks.clone(),
            rooms: Mutex::default(),
        }
    }
}

impl fmt::Debug for Sources {
    fn fmt(&self, f: &mut fmt::Formatter<'_>) -> fmt::Result {
        let names = self
            .files
            .iter()
            .map(|it| &self.texts[it.name.start..it.name.end]);
        f.debug_struct("Sources")
            .field("unit", &self.unit)
            .field("files", &names.collect::<Vec<_>>())
            .finish()
    }
}

/// Appends a text, and returns its range.
pub(crate) fn put(texts: &mut String, text: Option<&str>) -> Text {
    let Some(text) = text else { return Text::NONE };
    let start = texts.len();
    texts.push_str(text);
    Text {
        start,
        end: texts.len(),
    }
}
