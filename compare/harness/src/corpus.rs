//! A corpus of sheets: made from a seed, or kept in a file.

use std::fs::File;
use std::io::{BufReader, BufWriter, Read, Result, Write};

use crate::generator::{Theme, sheet};
use crate::text::assemble;

/// Where sheets come from, as a command line says it: `SEED:COUNT`, `bytes` or a file's name.
pub enum Corpus {
    Seed(u64, usize),
    /// A small plan cut at every length, and with every byte at every value.
    Bytes,
    File(String),
}

/// Every kind of record, with all that an activity can hold.
const SMALL: &str = "P 19723 data=19724 must-finish=19740 threshold=1\nC 480\nW 0 480 720\nW 0 780 1020\n\
    E 19730 0 0\nE 19732 480 960\nA 1 960 actual-start=19723 remaining=480\n\
    A 2 480 expected-finish=19725 constraint=start-on:19724 second=finish-on-or-before:19760 levelled=19725\n\
    L 1 2 FS lag=1\n";

impl Corpus {
    pub fn named(word: &str) -> Corpus {
        if word == "bytes" {
            return Corpus::Bytes;
        }
        let made =
            word.split_once(':').and_then(|(seed, count)| Some(Corpus::Seed(seed.parse().ok()?, count.parse().ok()?)));
        made.unwrap_or_else(|| Corpus::File(word.to_string()))
    }

    /// Hands each sheet with its number to `see`.
    pub fn each(&self, mut see: impl FnMut(usize, Theme, &[u8])) -> Result<()> {
        match self {
            Corpus::Seed(seed, count) => {
                for k in 0..*count {
                    let (theme, bytes) = sheet(*seed, k);
                    see(k, theme, &bytes);
                }
            }
            Corpus::Bytes => {
                let whole = assemble(SMALL).expect("a sheet");
                (0..whole.len()).for_each(|length| see(length, Theme::Cut, &whole[..length]));
                for at in 0..whole.len() {
                    let mut bytes = whole.clone();
                    for value in 0..=u8::MAX {
                        bytes[at] = value;
                        see(whole.len() + 256 * at + usize::from(value), Theme::Flipped, &bytes);
                    }
                }
            }
            Corpus::File(name) => {
                let mut file = BufReader::new(File::open(name)?);
                let mut head = [0; 5];
                for k in 0.. {
                    match file.read_exact(&mut head) {
                        Err(e) if e.kind() == std::io::ErrorKind::UnexpectedEof => break,
                        other => other?,
                    }
                    let [theme, length @ ..] = head;
                    let mut bytes = vec![0; u32::from_le_bytes(length) as usize];
                    file.read_exact(&mut bytes)?;
                    see(k, Theme::ALL[usize::from(theme)], &bytes);
                }
            }
        }
        Ok(())
    }

    /// Writes the corpus: for each sheet a byte of theme, its length (u32, little-endian) and its bytes.
    pub fn write(&self, name: &str) -> Result<()> {
        let mut file = BufWriter::new(File::create(name)?);
        let mut written = Ok(());
        self.each(|_, theme, bytes| {
            let head = [&[theme as u8], &(bytes.len() as u32).to_le_bytes()[..]].concat();
            if written.is_ok() {
                written = file.write_all(&head).and_then(|()| file.write_all(bytes));
            }
        })?;
        written?;
        file.flush()
    }
}
