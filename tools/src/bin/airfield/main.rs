//! The key office and an airfield's end at the command line, over the proved library; `words.rs` has the commands, `format.rs` the
//! text of the files, `files.rs` how they are kept.
//!
//! A refused call leaves its files as they were. A taken one has the end's new stage on the disk before it prints anything, and the end
//! keeps its message: a print that fails costs nothing, as the same command then prints the same bytes.
mod files;
mod format;
mod words;

use cutawheno::{Plan, Refusal, Use};
use cutawheno_tools::command::{shown, start, Fault, VERSION};
use cutawheno_tools::{standard, system};
use files::{is_erased, Held, New, Purpose};
use format::{numbers, End, Identity, List, Made, Stage, LARGEST};
use std::ffi::OsStr;
use std::io::Read;
use std::path::{Path, PathBuf};
use std::process::ExitCode;
use words::{Command, Figure, Figures, Number, HELP};

/// An element that is beyond the bound of every plan, in either use.
const BEYOND: u16 = 32760;
/// Bytes that are drawn for a list beyond two for each element, and as many more at each further try.
const SPARE: usize = 64;
/// How often a list is tried. With a sound source the first try fails less than once in 10 ^ 29 lists.
const TRIES: usize = 4;
/// Bytes of standard input that are looked through for figures: far more than a row has.
const LONGEST_INPUT: u64 = 1 << 16;
const NOT_COVERED: &str = "not covered: copies, backups and snapshots of it, what the disk, its file system or a swap area keeps of \
    old blocks, and what was printed or sent\n";

fn main() -> ExitCode {
    start("airfield", run)
}

fn run() -> Result<(), Fault> {
    let words: Vec<_> = std::env::args_os().skip(1).collect();
    let command = words::read(&words).map_err(Fault::usage)?;
    let mut output = standard::output().map_err(|fault| format!("{fault}; nothing was done"))?;
    let (text, done) = match command {
        Command::Help => (HELP.to_string(), None),
        Command::Version => (format!("airfield {VERSION}\n"), None),
        Command::List { plan, list } => (draw_list(plan, &list)?, None),
        Command::Key { list, airfield, round, end, usage } => (make_key(&list, airfield, round, &end, usage)?, None),
        Command::First { end, figures } => (first(&end, figures)?, Some(kept(&end))),
        Command::Again { end } => (again(&end)?, Some(kept(&end))),
        Command::Reply { end, round, set } => (reply(&end, round, set)?, Some(kept(&end))),
        Command::Status { file } => (status(&file)?, None),
        Command::Destroy { files } => (destroy(&files)? + NOT_COVERED, Some(destroyed(&files))),
    };
    standard::write(&mut output, text.as_bytes()).map_err(|fault| match done {
        Some(done) => format!("{fault}; {done}").into(),
        None => fault.into(),
    })
}

fn kept(end: &Path) -> String {
    format!("{} has kept the message: the same command prints it again", shown(end))
}

fn draw_list([k, u, t, m]: [Number; 4], file: &Path) -> Result<String, String> {
    let plan = Plan { users: k.value, threshold: u.value, collusion: t.value, blocks: m.value };
    let wanted = plan.list_len();
    if wanted == 0 {
        return Err(refused(
            Refusal::BadPlan,
            &format!("plan {k} {u} {t} {m} is outside its ranges: K from 3 to 8, T from 1, U above T and below K, M from 1 to 16"),
        ));
    }
    let mut identity = [0; 16];
    draw(&mut identity)?;
    let list = List { identity: Identity(identity), plan, made: None, elements: elements(plan, wanted)? };
    New::create(file, None)?.write(list.text().as_bytes())?;
    Ok(String::new())
}

/// The elements of a random list. At each try the bytes are all new, and how many is settled before they are drawn: so every list is as
/// likely as every other. Where they run out, more are asked for.
fn elements(plan: Plan, wanted: usize) -> Result<Vec<u16>, String> {
    let mut elements = vec![0; wanted];
    for tries in 1..=TRIES {
        let mut bytes = vec![0; 2 * wanted + tries * SPARE];
        draw(&mut bytes)?;
        match plan.list_from_bytes(&bytes, &mut elements) {
            Err(Refusal::BytesRunOut) => {}
            answer => return answer.map(|()| elements).map_err(|refusal| refusal.to_string()),
        }
    }
    let why = format!("in {TRIES} tries the system's source of randomness gave too few numbers up to {LARGEST}");
    Err(refused(Refusal::BytesRunOut, &why))
}

fn draw(bytes: &mut [u8]) -> Result<(), String> {
    system::draw(bytes).map_err(|fault| format!("the system's source of randomness: {fault}"))
}

/// The list counts the airfield's end as made, and its round, before the key is written anywhere: from one list no second end can come, and
/// no end for a second round.
fn make_key(file: &Path, given: Number, round: u32, end: &Path, usage: Use) -> Result<String, String> {
    let airfield = given.value;
    let held = Held::open(file, Purpose::Use)?;
    let mut list = List::read(&held.read()?).map_err(|fault| format!("{}: {fault}", shown(file)))?;
    let mut key = vec![0; list.plan.key_len()];
    list.plan.make_key(airfield, &list.elements, &mut key).map_err(|refusal| match refusal {
        Refusal::BadUser => refused(refusal, &format!("no airfield {given}: the plan of {} has 1 to {}", shown(file), list.plan.users)),
        _ => refusal.to_string(),
    })?;
    let member = 1 << (airfield - 1);
    if let Some(made) = list.made.filter(|made| made.round != round) {
        let why = format!("its ends are for round {}, and a list serves one round", made.round);
        return Err(format!("{}: {why}; draw a new list for round {round}", shown(file)));
    }
    if list.ends() & member != 0 {
        return Err(format!("{}: the end of airfield {airfield} was made from it already, and a key serves one end", shown(file)));
    }
    let new = New::create(end, Some(&held))?;
    list.made = Some(Made { ends: list.ends() | member, round });
    if let Err(fault) = held.replace(list.text().as_bytes(), list.head().len()) {
        return Err(format!("{fault}; {}", new.remove()));
    }
    let end = End { list: list.identity, plan: list.plan, airfield, round, usage, key, stage: Stage::Fresh };
    let made = |fault| format!("{fault}; {} counts the end as made, so draw a new list", shown(file));
    new.write(end.text().as_bytes()).map_err(made)?;
    Ok(String::new())
}

/// An end in its file, which is locked as long as this lasts.
struct Kept {
    held: Held,
    end: End,
}

impl Kept {
    fn open(file: &Path) -> Result<Kept, String> {
        let held = Held::open(file, Purpose::Use)?;
        let end = End::read(&held.read()?).map_err(|fault| format!("{}: {fault}", shown(file)))?;
        Ok(Kept { held, end })
    }

    fn replace(&self) -> Result<(), String> {
        self.held.replace(self.end.text().as_bytes(), self.end.head().len())
    }
}

fn first(file: &Path, figures: Figures) -> Result<String, String> {
    // figures may be slow to come: nobody waits for the lock meanwhile
    let figures = match figures {
        Figures::Given(figures) => figures,
        Figures::FromInput => figures_from_input()?,
    };
    let mut kept = Kept::open(file)?;
    let masked = masked(&kept.end, &figures);
    match kept.end.message() {
        Some(sent) if masked.as_ref().map_or(false, |message| message == sent) => kept.held.sync()?,
        Some(_) => {
            // figures beyond the bound may be those sent, under an earlier build
            let how = match masked {
                Err(Refusal::FigureBeyond) => ", which `airfield again` prints",
                _ => " with other figures",
            };
            let why = format!("{} has given its first message{how}, and a key never sends twice", shown(file));
            return Err(refused(Refusal::OutOfTurn, &why));
        }
        None => {
            let message = masked.map_err(|refusal| figures_refused(refusal, &kept.end, &figures))?;
            kept.end.stage = Stage::Sent { message };
            kept.replace()?;
        }
    }
    Ok(records(&kept.end, "first", kept.end.message().unwrap_or_default()))
}

/// What was sent, for whoever has the end and no longer the figures.
fn again(file: &Path) -> Result<String, String> {
    let kept = Kept::open(file)?;
    let message = kept.end.message().ok_or_else(|| refused(Refusal::OutOfTurn, &nothing_sent(file)))?;
    kept.held.sync()?;
    Ok(records(&kept.end, "first", message))
}

fn nothing_sent(file: &Path) -> String {
    format!("{} has given no first message yet", shown(file))
}

/// The first message of a fresh end with this key.
fn masked(end: &End, figures: &[Figure]) -> Result<Vec<u16>, Refusal> {
    let row: Vec<u16> = figures.iter().map(|figure| lent(end, figure.value)).collect();
    let mut message = vec![0; end.plan.row_len()];
    let fresh = cutawheno::End::start(end.plan, end.airfield, end.usage, end.round);
    let sent = fresh.and_then(|mut fresh| fresh.first_message(&end.key, &row, &mut message));
    sent.map(|()| message)
}

/// A figure as the element that the library is lent. What has none is lent as one that is refused as it would be: a count too large for
/// 16 bits by 3, a count below zero and a signed figure beyond the bound by 32.
fn lent(end: &End, figure: i32) -> u16 {
    match end.usage {
        Use::Counts if figure < 0 => BEYOND,
        Use::Counts => u16::try_from(figure).unwrap_or(u16::MAX),
        Use::Signed => end.plan.residue(figure).unwrap_or(BEYOND),
    }
}

/// Of figures that are refused the first is named, and what is wanted.
fn figures_refused(refusal: Refusal, end: &End, figures: &[Figure]) -> String {
    let End { plan, usage, .. } = end;
    let (least, largest) = range(plan, *usage);
    let wanted = format!("wanted are {} for {} airfields", in_words(plan, *usage), plan.users);
    let first = |is_refused: &dyn Fn(i32) -> bool| {
        let found = (1..).zip(figures).find(|(_, figure)| is_refused(figure.value));
        found.map(|(at, figure)| format!("figure {at} is {figure}"))
    };
    let why = match refusal {
        Refusal::BadLength => Some(format!("figures wanted {}, given {}", plan.row_len(), figures.len())),
        Refusal::BadElement => first(&|figure| figure > LARGEST.into()).map(|found| format!("{found}, above {LARGEST}; {wanted}")),
        Refusal::FigureBeyond => first(&|figure| figure < least || figure > largest).map(|found| format!("{found}; {wanted}")),
        _ => None,
    };
    why.map_or_else(|| refusal.to_string(), |why| refused(refusal, &why))
}

/// The least and the largest figure.
fn range(plan: &Plan, usage: Use) -> (i32, i32) {
    let bound = plan.figure_bound(usage).into();
    match usage {
        Use::Counts => (0, bound),
        Use::Signed => (-bound, bound),
    }
}

/// Which figures a use has.
fn in_words(plan: &Plan, usage: Use) -> String {
    let (least, largest) = range(plan, usage);
    let name = match usage {
        Use::Counts => "counts",
        Use::Signed => "signed figures",
    };
    format!("{name} from {least} to {largest}")
}

fn figures_from_input() -> Result<Vec<Figure>, String> {
    let mut text = Vec::new();
    let input = standard::input()?;
    input.take(LONGEST_INPUT + 1).read_to_end(&mut text).map_err(|fault| format!("standard input: {fault}"))?;
    if text.len() as u64 > LONGEST_INPUT {
        return Err(format!("standard input: more than {LONGEST_INPUT} bytes, which no row of figures has"));
    }
    words::figures_of(&text).map_err(|fault| format!("standard input: {fault}"))
}

fn reply(file: &Path, round: u32, set: Number) -> Result<String, String> {
    let mut kept = Kept::open(file)?;
    let mut end = resumed(&kept.end);
    let shares = end.reply(&kept.end.key, set.value, round);
    let shares = shares.map_err(|refusal| reply_refused(refusal, &kept.end, round, &set, file))?.to_vec();
    match kept.end.stage {
        Stage::Fresh | Stage::Answered { .. } => kept.held.sync()?,
        Stage::Sent { message } => {
            kept.end.stage = Stage::Answered { message, set: set.value };
            kept.replace()?;
        }
    }
    Ok(records(&kept.end, "reply", &shares))
}

/// The library's end, by the header's numbers.
fn resumed(end: &End) -> cutawheno::End {
    let Plan { users, threshold, collusion, blocks } = end.plan;
    let stage = match end.stage {
        Stage::Fresh => 0,
        Stage::Sent { .. } => 1,
        Stage::Answered { set, .. } => 2 + set,
    };
    cutawheno::End::resume([users, threshold, collusion, blocks, end.airfield, stage, end.usage as u32, end.round])
}

fn reply_refused(refusal: Refusal, end: &End, round: u32, set: &Number, file: &Path) -> String {
    let End { plan, airfield, .. } = end;
    let why = match (refusal, &end.stage) {
        (Refusal::SetUnusable, _) if set.value >> plan.users != 0 => {
            format!("set {set} is above {}, which is all of airfields 1 to {}", (1 << plan.users) - 1, plan.users)
        }
        (Refusal::SetUnusable, _) => {
            format!("set {set} is {}; wanted are at least {} of 1 to {}", members(set.value), plan.threshold, plan.users)
        }
        (Refusal::NotInSet, _) => format!("airfield {airfield} is not in set {set}, which is {}", members(set.value)),
        (Refusal::OtherRound, stage) => {
            let (file, own) = (shown(file), end.round);
            let advice = match stage {
                Stage::Answered { set, .. } => format!("of round {own} it has answered set {set}"),
                _ => format!("wait for the notice of round {own}"),
            };
            format!("set {set} is announced for round {round}, and {file} is for round {own}, the only one that its key serves; {advice}")
        }
        (Refusal::OtherSet, Stage::Answered { set: answered, .. }) => {
            format!("{} has answered set {answered}, and a key never answers two", shown(file))
        }
        (Refusal::OutOfTurn, _) => nothing_sent(file),
        _ => return refusal.to_string(),
    };
    refused(refusal, &why)
}

/// A message as records in words, place by place or block by block, led by a comment that tells which list its key comes from, and for
/// which round.
fn records(end: &End, kind: &str, elements: &[u16]) -> String {
    let End { list, airfield, round, .. } = end;
    let lines = elements.iter().enumerate().map(|(at, element)| format!("{kind} {airfield} {at} {element}\n"));
    format!("# list {} airfield {airfield} round {round}\n", list.short()) + &lines.collect::<String>()
}

fn status(file: &Path) -> Result<String, String> {
    let held = Held::open(file, Purpose::Use)?;
    let bytes = held.read()?;
    let read = match List::read(&bytes) {
        Err(_) if bytes.starts_with(b"cutawheno end ") => End::read(&bytes).map(|end| status_of_end(&end)),
        list => list.map(|list| status_of_list(&list)),
    };
    let left = held.leftover().map(|left| format!("beside it stands {left}, which a killed run may have left"));
    match (read, left) {
        (Ok(told), None) => Ok(told),
        (Ok(told), Some(left)) => Ok(format!("{told}{left}\n")),
        (Err(fault), None) => Err(format!("{}: {fault}", shown(file))),
        (Err(fault), Some(left)) => Err(format!("{}: {fault}; {left}", shown(file))),
    }
}

fn status_of_list(list: &List) -> String {
    let List { identity, plan, made, elements } = list;
    let round = made.map(|made| format!(", for round {}", made.round)).unwrap_or_default();
    let figures = [Use::Counts, Use::Signed].map(|usage| in_words(plan, usage)).join(", or ");
    let plan = status_of_plan(plan, &figures);
    format!("random list of {} elements\nlist {identity}\n{plan}ends made: {}{round}\n", elements.len(), members(list.ends()))
}

fn status_of_end(end: &End) -> String {
    let End { list, plan, airfield, round, .. } = end;
    let stage = match &end.stage {
        Stage::Fresh => "fresh: no first message has been sent".to_string(),
        Stage::Sent { .. } => "sent: the first message has been given, and no set is answered".to_string(),
        Stage::Answered { set, .. } => format!("answered: set {set}, {}", members(*set)),
    };
    let plan = status_of_plan(plan, &in_words(plan, end.usage));
    format!("end of airfield {airfield}, for round {round}\nlist {list}\n{plan}stage {stage}\n")
}

fn status_of_plan(plan: &Plan, figures: &str) -> String {
    let Plan { users, threshold, collusion, blocks } = plan;
    let airfields = format!("airfields {users}, of which {threshold} must answer and {collusion} may collude; blocks {blocks}");
    format!("plan {}\n{airfields}\nfigures in a row {}: {figures}\n", numbers(plan), plan.row_len())
}

/// The airfields of a set, in words.
fn members(set: u32) -> String {
    let members: Vec<String> = (0..u32::BITS).filter(|bit| set >> bit & 1 == 1).map(|bit| (bit + 1).to_string()).collect();
    match members[..] {
        [] => "no airfields".to_string(),
        _ => format!("airfields {}", members.join(" ")),
    }
}

/// Tries every file, also behind one that fails.
fn destroy(files: &[PathBuf]) -> Result<String, String> {
    let (mut done, mut faults) = (Vec::new(), Vec::new());
    for file in files {
        match destroy_one(file) {
            Ok(()) => done.push(file),
            Err(fault) => faults.push(fault),
        }
    }
    match faults[..] {
        [] => Ok(destroyed(files) + "\n"),
        _ => {
            let others = if done.is_empty() { String::new() } else { format!("; {}", destroyed(&done)) };
            let (count, faults) = (faults.len(), faults.join("; "));
            Err(format!("{count} of {} files not destroyed, or not with what stands beside: {faults}{others}", files.len()))
        }
    }
}

fn destroyed(files: &[impl AsRef<OsStr>]) -> String {
    format!("overwritten and removed: {}", files.iter().map(shown).collect::<Vec<_>>().join(" "))
}

/// An empty file or one of zeros may be what a killed run has left, if it is as this tool makes files. What stands beside a file that is
/// damaged is taken for a version of it if it begins as a list or an end.
fn destroy_one(file: &Path) -> Result<(), String> {
    let held = Held::open(file, Purpose::Destruction)?;
    let bytes = held.read()?;
    if is_erased(&bytes) && !held.is_private() {
        return Err(format!("{}: it is empty or all zeros, and no private file of this user; it stays as it is", shown(file)));
    }
    if !format::known(&bytes) && !is_erased(&bytes) {
        return Err(format!("{}: it is neither a list nor an end, and stays as it is", shown(file)));
    }
    let head = End::read(&bytes).map(|end| end.head()).or_else(|_| List::read(&bytes).map(|list| list.head()));
    held.destroy(|left| match &head {
        Ok(head) => left.starts_with(head.as_bytes()) || head.as_bytes().starts_with(left),
        Err(_) => format::known(left),
    })
}

/// A refusal with its number, and why it came.
fn refused(refusal: Refusal, why: &str) -> String {
    format!("refused {}: {why}", refusal.number())
}
