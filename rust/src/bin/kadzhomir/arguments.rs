use crate::Failure;
use kadzhomir::{Options, WalPosition};
use std::ffi::OsString;
use std::path::PathBuf;

pub const HELP: &str = "\
kadzhomir COMMAND FILE [OPTIONS]: look inside a node's log

These change nothing, and may be used while the node runs:
  list FILE        a line for each entry: position, tag, length, checksum;
                   then where the log ends: END, ZEROS or TORN, the place, the
                   bytes behind it; or REFUSED and the number
  verify FILE      that last line alone, with the position of a refusal, and
                   the length known to be on disk. The entries are read, and
                   not replayed: recover does that
  recover FILE     what a node that opens this log would believe: counts, and
                   the pending entries; or why it would not open it
  recover FILE --page  the same, as the recovery page for the office wall, in
                   lines of 72 columns; where a node would not open the log,
                   the refusal's number alone
  dump FILE POS    the entry at a position, decoded

These change the file. Stop the node first; keep a copy:
  cut FILE         cut the log behind its last whole entry. What is cut off goes
                   into a file of its own, FILE.aside-TIME-PLACE
  cut FILE --at POS    the same at an earlier place, behind an entry or zeros
                   that follow it: for a log that is damaged there. EVERYTHING
                   BEHIND POS IS GIVEN UP, acknowledged or not
  adopt FILE       make the node file of a log that has none

Options:
  --exponent K     the region exponent. Needed only where no node file
                   (FILE.node) stands beside the log. With a wrong one a log
                   looks short or damaged
  --committee N --own A    the same for the committee's size and the own
                   authority, for recover and adopt
  --from POS       list from an entry's end on

Exit status: 0 sound; 1 torn, or bytes unread; 2 damaged or refused; 64 a wrong
call; 74 a file that cannot be read, written or locked.
See docs/OPERATING.md and docs/REFUSALS.md.";

/// The words of a call.
#[derive(Debug, Default)]
pub struct Arguments {
    pub command: String,
    pub file: PathBuf,
    pub position: Option<WalPosition>,
    pub exponent: Option<u64>,
    pub committee: Option<u64>,
    pub own: Option<u64>,
    pub at: Option<WalPosition>,
    pub from: Option<WalPosition>,
    pub page: bool,
}

/// The commands, and whether they take a position and each of the options.
const COMMANDS: [(&str, bool, &[&str]); 7] = [
    ("list", false, &["--exponent", "--from"]),
    ("verify", false, &["--exponent"]),
    ("recover", false, &["--exponent", "--committee", "--own", "--page"]),
    ("dump", true, &["--exponent"]),
    ("cut", false, &["--exponent", "--at"]),
    ("adopt", false, &["--exponent", "--committee", "--own"]),
    ("help", false, &[]),
];

impl Arguments {
    pub fn parse(mut words: impl Iterator<Item = OsString>) -> Result<Self, Failure> {
        let command = words.next().ok_or_else(|| usage("no command was given"))?.to_string_lossy().into_owned();
        if ["help", "--help", "-h"].contains(&command.as_str()) {
            return Ok(Self { command: "help".into(), ..Self::default() });
        }
        let (_, positioned, options) =
            COMMANDS.iter().find(|c| c.0 == command).ok_or_else(|| usage(&format!("there is no command '{command}'")))?;
        let mut parsed = Self { command, ..Self::default() };
        let mut plain = Vec::new();
        while let Some(word) = words.next() {
            let option = word.to_string_lossy().into_owned();
            if option == "--help" || option == "-h" {
                return Ok(Self { command: "help".into(), ..Self::default() });
            }
            if !option.starts_with("--") {
                plain.push(word);
            } else if options.contains(&option.as_str()) {
                if parsed.set(&option, &mut words)? {
                    return Err(usage(&format!("{option} is given twice")));
                }
            } else {
                return Err(usage(&format!("'{}' has no option {option}", parsed.command)));
            }
        }
        parsed.take(plain, *positioned)
    }

    /// Sets an option, with its value from the words behind it, and answers whether it was set before. `--page` alone has no value.
    fn set(&mut self, option: &str, words: &mut impl Iterator<Item = OsString>) -> Result<bool, Failure> {
        if option == "--page" {
            return Ok(std::mem::replace(&mut self.page, true));
        }
        let value = number(&words.next().ok_or_else(|| usage(&format!("{option} wants a number")))?)?;
        Ok(match option {
            "--exponent" => self.exponent.replace(value).is_some(),
            "--committee" => self.committee.replace(value).is_some(),
            "--own" => self.own.replace(value).is_some(),
            "--at" => self.at.replace(WalPosition(value)).is_some(),
            _ => self.from.replace(WalPosition(value)).is_some(),
        })
    }

    fn take(mut self, plain: Vec<OsString>, positioned: bool) -> Result<Self, Failure> {
        let wanted = if positioned { "a FILE and a POS" } else { "one FILE" };
        if plain.len() != 1 + usize::from(positioned) {
            return Err(usage(&format!("'{}' wants {wanted}", self.command)));
        }
        self.file = PathBuf::from(&plain[0]);
        if positioned {
            self.position = Some(WalPosition(number(&plain[1])?));
        }
        Ok(self)
    }

    /// What the log is to be opened with: of its node file, or given.
    pub fn options(&self, recorded: Option<&kadzhomir::Settings>) -> Result<Options, Failure> {
        let need = |given: Option<u64>, recorded: Option<u64>, name: &str| {
            given.or(recorded).ok_or_else(|| usage(&format!("it is not known what this log was written with: give {name}")))
        };
        let committee = need(self.committee, recorded.map(|s| s.committee_size), "--committee")?;
        let own = need(self.own, recorded.map(|s| s.own), "--own")?;
        let options = Options::new(committee, own);
        Ok(self.exponent.map_or(options, |k| options.exponent(k)))
    }
}

fn usage(what: &str) -> Failure {
    Failure::Usage(what.to_string())
}

fn number(word: &OsString) -> Result<u64, Failure> {
    let number = word.to_str().and_then(|word| word.parse().ok());
    number.ok_or_else(|| usage(&format!("'{}' is no number", word.to_string_lossy())))
}
