//! docs/SPEED.md and docs/speed.svg, from what was measured.
use std::fmt::Write;
use std::fs;

/// Colours of the bars, and of our curves.
const FASTER: &str = "#4a8";
const SLOWER: &str = "#c84";
const OURS: &str = "#848";

/// Nanoseconds and instructions of a call of ours, Rust and the frozen Rust, these two at their best; our time over that of Rust's release build.
pub struct Call {
    pub name: String,
    pub times: [f64; 3],
    pub release: f64,
    pub counts: [Option<f64>; 3],
}

/// Milliseconds of ours, Rust and the frozen Rust at their best, Rust's release build and cat; instructions for a byte of the first three.
pub struct Stream {
    pub name: String,
    pub times: [f64; 5],
    pub counts: [Option<f64>; 3],
}

#[derive(Default)]
pub struct Report {
    pub calls: Vec<Call>,
    pub streams: Vec<Stream>,
    /// KiB of ours and of Rust.
    pub memory: [u32; 2],
    /// The name of a call of ours, and nanoseconds of FLINT block by block and by columns.
    pub solver: Vec<(String, Option<[f64; 2]>)>,
    /// Users, seconds of a check.
    pub proofs: Vec<(u32, f64)>,
}

fn counted<const N: usize>(counts: [Option<f64>; N], digits: usize) -> String {
    counts.map(|count| count.map_or(" |".into(), |count| format!(" {count:.digits$} |"))).concat()
}

impl Report {
    pub fn write(&self, method: &str) {
        fs::write("docs/SPEED.md", self.table(method)).unwrap();
        fs::write("docs/speed.svg", self.plot()).unwrap();
    }

    fn call(&self, name: &str) -> &Call {
        self.calls.iter().find(|call| call.name == name).unwrap()
    }

    /// Name and times of every row: ours, Rust, the frozen Rust.
    fn rows(&self) -> Vec<(&str, [f64; 3])> {
        let streams = self.streams.iter().map(|row| (row.name.as_str(), [row.times[0], row.times[1], row.times[2]]));
        streams.chain(self.calls.iter().map(|row| (row.name.as_str(), row.times))).collect()
    }

    /// Our time over that of Rust (1) or the frozen Rust (2), of the rows whose name starts so.
    fn ratios(&self, start: &str, side: usize) -> Vec<(&str, f64)> {
        let rows = self.rows().into_iter().filter(|row| row.0.starts_with(start));
        rows.map(|(name, times)| (name, times[0] / times[side])).collect()
    }

    fn table(&self, method: &str) -> String {
        let mut out = String::new();
        let mut line = |text: &str| writeln!(out, "{text}").unwrap();
        line("# Speed\n");
        line("Written by `bench/run`, which builds everything, compares all results and then measures. A ratio is our time over another's in the same run: above 1, ours is slower.\n");
        line("- Rust: `bench/src`, plain Rust with the same algorithms and the same tests of the input, at its best build: `codegen-units = 1`, `lto = \"fat\"`, `panic = \"abort\"`.\n- Release: the same built by cargo's release profile.\n- Frozen: `bench/frozen`, the plain Rust that ours was measured beside before sums came from tables and products went by lanes, at the best build. It is never changed.\n- Instructions are counted by callgrind, and are the same in every run.\n");
        line(method);
        line(
            "\n![Ratios of each row to Rust at its best, and how cost grows with the number of airfields](speed.svg)\n",
        );
        self.goals(&mut line);
        line("## The program\n");
        line("`target/bin/pool` beside `bench/src/pool.rs`, which prints the same lines after the same reads; `cat` of the same bytes is the floor. A stream has 48 MiB, and the output goes to /dev/null.\n");
        line("| stream | ours, ms | Rust, ms | ratio | release, ms | ratio | frozen, ms | ratio | cat, ms | ours, instructions a byte | Rust | frozen |\n|---|---|---|---|---|---|---|---|---|---|---|---|");
        for Stream { name, times: [ours, rust, frozen, release, cat], counts } in &self.streams {
            let [best, plain, before] = [rust, release, frozen].map(|other| ours / other);
            line(&format!("| {name} | {ours:.0} | {rust:.0} | {best:.2} | {release:.0} | {plain:.2} | {frozen:.0} | {before:.2} | {cat:.0} |{}", counted(*counts, 1)));
        }
        let [ours, rust] = self.memory;
        line(&format!("\nPeak memory over the mixed stream: ours {ours} KiB, Rust {rust} KiB.\n"));
        line("## Calls\n");
        line("Through the static library, beside `bench/src/fast.rs`. The random list is drawn from bytes that look random, with a number to skip among them; a key is that of all users in turn; of a round all users survive, and the first U or all of them reply; for an aside all reply, one of them falsely in every block. The ratio to the release build is of a run of its own.\n");
        line("| call and plan | ours, ns | Rust, ns | ratio | to release | frozen, ns | ratio | ours, instructions | Rust | frozen |\n|---|---|---|---|---|---|---|---|---|---|");
        for Call { name, times: [ours, rust, frozen], release, counts } in &self.calls {
            let [best, before] = [rust, frozen].map(|other| ours / other);
            line(&format!(
                "| {name} | {ours:.0} | {rust:.0} | {best:.2} | {release:.2} | {frozen:.0} | {before:.2} |{}",
                counted(*counts, 0)
            ));
        }
        line("\n## Finding a reply\n");
        line("A lookup goes through the set numbers and stops at the announced set: the first and the last set of airfield 1, by our calls of the rows above.\n");
        line("| plan | set 3, ns | set 255, ns | times as long |\n|---|---|---|---|");
        let [near, far] = [3, 255].map(|set| self.call(&format!("lookup of set {set}, 8 2 1 16")).times[0]);
        line(&format!("| 8 2 1 16 | {near:.1} | {far:.1} | {:.1} |", far / near));
        line("\n## Solving a round\n");
        line("A whole finish of ours, with its tests, the sums of the first messages and the clearing of the state, beside FLINT's `nmod_mat_solve` on the same systems modulo 65521 in matrices that are already filled; where more than U reply, FLINT sees by `nmod_mat_mul` and `nmod_mat_equal` whether the unknowns explain the others, as finish does. By block: M systems with one right side each; by columns, its best shape: one system with M right sides. Here a number above 1 says how many times faster ours is.\n");
        line("| call | our finish, ns | FLINT by block, ns | times | FLINT by columns, ns | times |\n|---|---|---|---|---|---|");
        for (name, flint) in &self.solver {
            let ours = self.call(name).times[0];
            match flint {
                Some([blocks, columns]) => line(&format!(
                    "| {name} | {ours:.0} | {blocks:.0} | {:.1} | {columns:.0} | {:.1} |",
                    blocks / ours,
                    columns / ours
                )),
                None => line(&format!("| {name} | {ours:.0} | skipped: FLINT is not installed | | | |")),
            }
        }
        line("\n## One false reply\n");
        line("A finish of ours with the replies of all airfields, that of one of them false in every block, beside one in which they agree. The unknowns of the first U replies are compared with the others: if one of these does not fit it is set aside, and if more do not, finish solves from other replies, at most U / (K - U) times, rounded up. An airfield above U is found at once. Leaving out one airfield after the other would solve up to K + 1 = 9 times.\n");
        line("| call | all agree, ns | with the aside, ns | times as long |\n|---|---|---|---|");
        for call in self.calls.iter().filter(|call| call.name.starts_with("finish with aside")) {
            let (_, plan) = call.name.split_once(", ").unwrap();
            let [agreeing, aside] = [self.call(&format!("finish of 8 replies, {plan}")).times[0], call.times[0]];
            line(&format!("| {} | {agreeing:.0} | {aside:.0} | {:.1} |", call.name, aside / agreeing));
        }
        line("\n## How cost grows with the number of airfields\n");
        line("A key has shares for 2 ^ (K - 1) - 1 sets where U = 2, so the time of the key maker doubles with each airfield, as its rows above show, and so does that of first message and reply, which test the whole key. The service holds no key: its calls grow with K at most.\n");
        line("Of the proofs two go through all sets: the table of counts in `plan/src/lib.rt` is computed and compared entry by entry, and that no plan has longer lists is computed from such counts (`exported/proofs/Longest.antt`). Their time about doubles with each airfield, as the number of sets does. The tables of inverses and of gaps have an entry for each sum and difference of points, and the examples have plans of their own; all other proofs are arguments for every plan, and their time does not depend on K. Seconds of processor time of `rt check` on the table alone, for at most K airfields, all loading included:\n");
        line("| K | seconds |\n|---|---|");
        for (users, seconds) in &self.proofs {
            line(&format!("| {users} | {seconds:.1} |"));
        }
        out
    }

    /// What was set out for, and how far it is reached.
    fn goals(&self, line: &mut impl FnMut(&str)) {
        line("## Goals\n");
        line("| goal | rows | short |\n|---|---|---|");
        let mut goal = |goal: &str, ratios: Vec<(&str, f64)>, met: &dyn Fn(f64) -> bool| {
            let short: Vec<_> =
                ratios.iter().filter(|row| !met(row.1)).map(|(name, ratio)| format!("{name}: {ratio:.2}")).collect();
            let short = if short.is_empty() { "none".into() } else { short.join("; ") };
            line(&format!("| {goal} | {} | {short} |", ratios.len()));
        };
        let most = |most: f64| move |ratio: f64| ratio < most + 0.005;
        goal("at most 1.00 of Rust at its best build", self.ratios("", 1), &most(1.0));
        goal("accepted elements at most 0.65 of the frozen Rust", self.ratios("accepted", 2), &most(0.65));
        goal("key maker 8 2 1 16 at most 0.45 of the frozen Rust", self.ratios("key maker, 8 2 1 16", 2), &most(0.45));
        goal("a finish at most 0.75 of the frozen Rust", self.ratios("finish", 2), &most(0.75));
        let times = |(name, flint): &'_ (String, Option<[f64; 2]>)| {
            flint.map(|[_, columns]| columns / self.call(name).times[0])
        };
        let flint = self.solver.iter().filter_map(|row| times(row).map(|times| (row.0.as_str(), times))).collect();
        goal("a finish at least 4 times as fast as FLINT by columns", flint, &|times| 3.95 <= times);
        line("");
    }

    fn plot(&self) -> String {
        let ratios = self.ratios("", 1);
        let bars = 20 * ratios.len();
        let mut svg = Svg::new(760, bars + 350);
        svg.text(10, 20, "start", "our time over that of Rust at its best build");
        for (x, fill, text) in [(500.0, FASTER, "ours is faster"), (620.0, SLOWER, "ours is slower")] {
            svg.bar(x, 9, 14.0, fill);
            svg.text(x as u32 + 20, 20, "start", text);
        }
        let widest = ratios.iter().fold(2.0, |most: f64, row| most.max(row.1));
        let scale = |ratio: f64| 210.0 + 480.0 * ratio / widest;
        for (row, &(name, ratio)) in ratios.iter().enumerate() {
            let y = 34 + 20 * row as u32;
            svg.text(200, y + 11, "end", name);
            let fill = if ratio <= 1.0 { FASTER } else { SLOWER };
            svg.bar(210.0, y, scale(ratio) - 210.0, fill);
            svg.text(scale(ratio.max(1.0)) as u32 + 6, y + 11, "start", &format!("{ratio:.2}"));
        }
        svg.text(scale(1.0) as u32, 22, "middle", "1.00");
        svg.line(scale(1.0), 28.0, scale(1.0), 34.0 + bars as f64, "#333");
        let top = bars as f64 + 70.0;
        let micros = |side: usize| {
            (3..=8).map(|users| (users, self.call(&format!("key maker, {users} 2 1 16")).times[side] / 1e3)).collect()
        };
        svg.panel(
            60.0,
            top,
            "key maker, microseconds against K",
            &[("ours", OURS, micros(0)), ("Rust", "#48c", micros(1)), ("frozen", "#999", micros(2))],
        );
        svg.panel(440.0, top, "check of what is computed over K, seconds", &[("seconds", OURS, self.proofs.clone())]);
        svg.end()
    }
}

struct Svg(String);

impl Svg {
    fn new(width: usize, height: usize) -> Svg {
        Svg(format!(
            "<svg xmlns=\"http://www.w3.org/2000/svg\" viewBox=\"0 0 {width} {height}\" font-family=\"sans-serif\" font-size=\"12\">\n<rect width=\"{width}\" height=\"{height}\" fill=\"#fff\"/>\n"
        ))
    }

    fn text(&mut self, x: u32, y: u32, anchor: &str, text: &str) {
        writeln!(self.0, "<text x=\"{x}\" y=\"{y}\" text-anchor=\"{anchor}\">{text}</text>").unwrap();
    }

    fn bar(&mut self, x: f64, y: u32, width: f64, fill: &str) {
        writeln!(self.0, "<rect x=\"{x:.1}\" y=\"{y}\" width=\"{width:.1}\" height=\"14\" fill=\"{fill}\"/>").unwrap();
    }

    fn line(&mut self, x: f64, y: f64, to_x: f64, to_y: f64, stroke: &str) {
        writeln!(self.0, "<path d=\"M{x:.1} {y:.1}L{to_x:.1} {to_y:.1}\" stroke=\"{stroke}\"/>").unwrap();
    }

    /// Curves over the number of users, in a square of 220 by 220.
    fn panel(&mut self, x: f64, y: f64, title: &str, curves: &[(&str, &str, Vec<(u32, f64)>)]) {
        let points = || curves.iter().flat_map(|curve| &curve.2);
        let (least, last) = (points().map(|p| p.0).min().unwrap(), points().map(|p| p.0).max().unwrap());
        let most = points().fold(0.0, |most: f64, p| most.max(p.1));
        let across = |users: u32| x + 220.0 * (users - least) as f64 / (last - least).max(1) as f64;
        let up = |value: f64| y + 220.0 * (1.0 - value / most);
        self.text(x as u32, y as u32 - 12, "start", title);
        self.line(x, y + 220.0, x + 220.0, y + 220.0, "#333");
        self.line(x, y, x, y + 220.0, "#333");
        self.text(x as u32 - 6, y as u32 + 4, "end", &format!("{most:.1}"));
        self.text(x as u32 - 6, y as u32 + 224, "end", "0");
        for users in least..=last {
            self.text(across(users) as u32, y as u32 + 238, "middle", &users.to_string());
        }
        for (i, (name, stroke, points)) in curves.iter().enumerate() {
            let path: Vec<String> = points.iter().map(|p| format!("{:.1} {:.1}", across(p.0), up(p.1))).collect();
            writeln!(self.0, "<path d=\"M{}\" fill=\"none\" stroke=\"{stroke}\" stroke-width=\"2\"/>", path.join("L"))
                .unwrap();
            self.line(x + 12.0, y + 12.0 + 16.0 * i as f64, x + 32.0, y + 12.0 + 16.0 * i as f64, stroke);
            self.text(x as u32 + 38, y as u32 + 16 + 16 * i as u32, "start", name);
        }
    }

    fn end(mut self) -> String {
        self.0.push_str("</svg>\n");
        self.0
    }
}
