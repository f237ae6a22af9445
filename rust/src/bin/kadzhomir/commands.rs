use crate::arguments::{Arguments, HELP};
use crate::{dump, say, Failure, Status};
use kadzhomir::{Cut, Entry, Error, Look, Node, Pending, Plan, RefusedAt, WalPosition};
use std::io::{self, IsTerminal, Write};
use std::time::{Duration, Instant};

pub fn run(arguments: &Arguments, out: &mut impl Write) -> Result<Status, Failure> {
    match arguments.command.as_str() {
        "list" => list(arguments, out),
        "verify" => verify(arguments, out),
        "recover" => recover(arguments, out),
        "dump" => dump::dump(&look(arguments)?, arguments.position.unwrap_or_default(), out),
        "cut" => cut(arguments, out),
        "adopt" => adopt(arguments, out),
        _ => {
            writeln!(out, "{HELP}")?;
            Ok(Status::Sound)
        }
    }
}

fn look(arguments: &Arguments) -> Result<Look, Failure> {
    Ok(Look::at(&arguments.file, arguments.exponent)?)
}

/// Where a listing begins: within the log.
fn from(arguments: &Arguments, look: &Look) -> Result<WalPosition, Failure> {
    let from = arguments.from.unwrap_or_default();
    if from.0 > look.used() {
        return Err(Failure::Usage(format!("--from {from} is past the log's end, {}", look.used())));
    }
    Ok(from)
}

// ---- list and verify

/// How a walk over a log ended.
enum Ending {
    Stopped { stop: kadzhomir::Stop, end: WalPosition, unread: u64 },
    Refused(RefusedAt),
}

/// Walks with a progress line on a terminal, and hands on each entry.
fn walk(look: &Look, from: WalPosition, mut each: impl FnMut(&Entry) -> io::Result<()>) -> Result<Ending, Failure> {
    let mut entries = match look.entries_from(from) {
        Ok(entries) => entries,
        Err(error) => return refused_at(error),
    };
    let mut progress = Progress::new(look.used());
    while let Some(step) = entries.next() {
        match step {
            Ok(entry) => each(&entry)?,
            Err(error) => return refused_at(error),
        }
        progress.tell(entries.end().0);
    }
    let stop = entries.stop().unwrap_or(kadzhomir::Stop::Zeros);
    Ok(Ending::Stopped { stop, end: entries.end(), unread: look.used() - entries.end().0 })
}

/// The end of a walk that was refused.
fn refused_at(error: Error) -> Result<Ending, Failure> {
    match error {
        Error::Refused { refusal, start: Some(start) } => Ok(Ending::Refused(RefusedAt { refusal, start })),
        error => Err(error.into()),
    }
}

/// The listing of the specification, to the byte.
fn list(arguments: &Arguments, out: &mut impl Write) -> Result<Status, Failure> {
    let look = look(arguments)?;
    let line = |e: &Entry| writeln!(out, "{} {} {} {:08x}", e.position, e.tag, e.len, e.checksum);
    let ending = walk(&look, from(arguments, &look)?, line)?;
    if let Ending::Refused(RefusedAt { refusal, .. }) = ending {
        writeln!(out, "REFUSED {}", refusal.number())?;
        return Ok(Status::Damaged);
    }
    judged(&look, &ending, out)
}

fn verify(arguments: &Arguments, out: &mut impl Write) -> Result<Status, Failure> {
    let look = look(arguments)?;
    let ending = walk(&look, WalPosition(0), |_| Ok(()))?;
    if let Ending::Refused(RefusedAt { refusal, start }) = ending {
        writeln!(out, "REFUSED {} {start}", refusal.number())?;
    }
    let status = judged(&look, &ending, out)?;
    let Some(settings) = look.settings() else { return Ok(status) };
    writeln!(out, "known {}", settings.known)?;
    let reached = match ending {
        Ending::Stopped { end, .. } => end,
        Ending::Refused(refused) => refused.start,
    };
    if reached.0 < settings.known {
        writeln!(out, "DAMAGED {reached} {}", settings.known)?;
        return Ok(Status::Damaged);
    }
    Ok(status)
}

/// The line of a stop, and what it says of the log.
fn judged(look: &Look, ending: &Ending, out: &mut impl Write) -> Result<Status, Failure> {
    let Ending::Stopped { stop, end, unread } = ending else { return Ok(Status::Damaged) };
    writeln!(out, "{stop} {end} {unread}")?;
    let known = look.settings().map_or(0, |s| s.known);
    Ok(match unread {
        _ if end.0 < known => Status::Damaged,
        0 => Status::Sound,
        _ => Status::Unread,
    })
}

// ---- recover

fn recover(arguments: &Arguments, out: &mut impl Write) -> Result<Status, Failure> {
    let look = look(arguments)?;
    let options = arguments.options(look.settings())?;
    if look.used() >= LONG && io::stderr().is_terminal() {
        say(format_args!("recovering {} bytes ..", look.used()));
    }
    match look.plan(&options) {
        Ok(plan) if arguments.page => page(&plan, out),
        Ok(plan) => believed(&plan, out),
        Err(error) if arguments.page => no_page(error, out),
        Err(error) => refused(error, out),
    }
}

fn believed(plan: &Plan, out: &mut impl Write) -> Result<Status, Failure> {
    let (store, recovered) = (&plan.store, &plan.recovered);
    for RefusedAt { refusal, start } in &plan.cuts {
        writeln!(out, "cut {} {start}", refusal.number())?;
    }
    writeln!(out, "{} {} {}", recovered.stop(), recovered.end(), plan.tail().len())?;
    writeln!(out, "pending {}", recovered.pending().len())?;
    writeln!(out, "unprocessed {}", recovered.unprocessed().len())?;
    writeln!(out, "committed {}", recovered.committed().len())?;
    writeln!(out, "indexed {}", store.len_expensive())?;
    writeln!(out, "highest-round {}", store.highest_round())?;
    for pending in recovered.pending() {
        match pending {
            Pending::Block { position, reference: r } => {
                writeln!(out, "block {position} {} {} {}", r.authority, r.round, dump::hex(&r.digest))?;
            }
            Pending::Payload { position, len } => writeln!(out, "payload {position} {len}")?,
        }
    }
    Ok(tail_status(plan))
}

/// What the bytes behind the last whole entry say of the log.
fn tail_status(plan: &Plan) -> Status {
    if plan.tail().is_empty() {
        Status::Sound
    } else {
        Status::Unread
    }
}

/// The recovery page. Standard output has its lines alone, so that the cuts are told on standard error.
fn page(plan: &Plan, out: &mut impl Write) -> Result<Status, Failure> {
    for RefusedAt { refusal, start } in &plan.cuts {
        say(format_args!("cut {} {start}", refusal.number()));
    }
    match plan.recovery_page() {
        Ok(text) => out.write_all(text.as_bytes())?,
        Err(refused) => return no_page(refused.refusal.into(), out),
    }
    Ok(tail_status(plan))
}

/// The page of a log that no node would open: the number in 13 columns, where there is one, filled with blanks to 72.
fn no_page(error: Error, out: &mut impl Write) -> Result<Status, Failure> {
    if let Some(refusal) = error.refusal() {
        writeln!(out, "{:>13}{:59}", refusal.number(), "")?;
    }
    out.flush()?;
    Err(error.into())
}

/// The lines of a log that no node would open.
fn refused(error: Error, out: &mut impl Write) -> Result<Status, Failure> {
    match &error {
        Error::Damaged { position, known, refusal } => {
            if let Some(refusal) = refusal {
                writeln!(out, "REFUSED {} {position}", refusal.number())?;
            }
            writeln!(out, "DAMAGED {position} {known}")?;
        }
        Error::Refused { refusal, start } => writeln!(out, "REFUSED {} {}", refusal.number(), start.unwrap_or_default())?,
        _ => return Err(error.into()),
    }
    out.flush()?;
    Err(error.into())
}

// ---- cut and adopt

fn cut(arguments: &Arguments, out: &mut impl Write) -> Result<Status, Failure> {
    let cut = Cut::file(&arguments.file, arguments.exponent, arguments.at)?;
    writeln!(out, "end {}", cut.end)?;
    if let Some(aside) = cut.aside {
        writeln!(out, "aside {} {}", aside.bytes, aside.path.display())?;
    }
    if cut.acknowledged > 0 {
        writeln!(out, "acknowledged {}", cut.acknowledged)?;
    }
    Ok(Status::Sound)
}

fn adopt(arguments: &Arguments, out: &mut impl Write) -> Result<Status, Failure> {
    let opened = match Node::adopt(&arguments.file, &arguments.options(None)?) {
        Ok(opened) => opened,
        Err(error) => return refused(error, out),
    };
    writeln!(out, "end {}", opened.node.known())?;
    Ok(Status::Sound)
}

// ---- Progress

/// A log whose walk takes long enough to say how far it is.
const LONG: u64 = 1 << 26;

/// A line on standard error that is written over, where that is a terminal and the log is long.
struct Progress {
    all: u64,
    next: Option<Instant>,
    told: bool,
}

impl Progress {
    fn new(all: u64) -> Self {
        let long = all >= LONG && io::stderr().is_terminal();
        Self { all, next: long.then(Instant::now), told: false }
    }

    fn tell(&mut self, done: u64) {
        let now = Instant::now();
        if self.next.is_some_and(|next| next <= now) {
            let _ = write!(io::stderr(), "\r{:3} % of {} bytes", done / (self.all / 100).max(1), self.all);
            self.next = Some(now + Duration::from_millis(200));
            self.told = true;
        }
    }
}

impl Drop for Progress {
    fn drop(&mut self) {
        if self.told {
            let _ = write!(io::stderr(), "\r{:40}\r", "");
        }
    }
}
