//! The table of what was measured, in Markdown, with the goals.

/// What a call does, on which its goals depend.
#[derive(Clone, Copy, PartialEq)]
pub enum Kind {
    /// Events come or go, and what stands behind them moves.
    Moving,
    /// An event becomes another, and nothing moves.
    Changing,
    /// Something is asked.
    Asking,
}

/// One call on so many events, in seconds: the engraver, the implementation that does everything anew, the bare work, and the limit.
#[derive(Clone, Copy)]
pub struct Row {
    pub what: &'static str,
    pub kind: Kind,
    pub events: usize,
    pub engraver: f64,
    pub anew: f64,
    pub bare: f64,
    pub limit: f64,
}

const LARGEST: usize = 65536;

impl Row {
    /// What is missed of the row's goals by what takes so long.
    fn missed(&self, time: f64) -> Vec<String> {
        let mut missed = Vec::new();
        let faster = if self.kind == Kind::Asking && self.events == LARGEST { 100.0 } else { 1.0 };
        if self.anew / time < faster {
            missed.push(if faster == 1.0 { "slower than anew".to_string() } else { format!("not {faster} times faster than anew") });
        }
        let within = match self.kind {
            Kind::Moving => 4.0,
            Kind::Changing => f64::INFINITY,
            Kind::Asking => 8.0,
        };
        if time / self.limit > within {
            missed.push(format!("more than {within} times the limit"));
        }
        missed
    }
}

fn time(seconds: f64) -> String {
    let ns = seconds * 1e9;
    match ns {
        _ if ns < 10.0 => format!("{ns:.1} ns"),
        _ if ns < 1e3 => format!("{ns:.0} ns"),
        _ if ns < 1e4 => format!("{:.2} µs", ns / 1e3),
        _ if ns < 1e6 => format!("{:.0} µs", ns / 1e3),
        _ => format!("{:.1} ms", ns / 1e6),
    }
}

fn verdict(missed: &[String]) -> String {
    if missed.is_empty() { "met".to_string() } else { format!("missed: {}", missed.join("; ")) }
}

fn ratio(x: f64) -> String {
    if x < 10.0 { format!("{x:.1}") } else { format!("{x:.0}") }
}

/// What kind of machine this is.
fn machine() -> String {
    let info = std::fs::read_to_string("/proc/cpuinfo").unwrap_or_default();
    let model = info.lines().find(|l| l.starts_with("model name")).and_then(|l| l.split(": ").nth(1)).unwrap_or("a processor without a name");
    let cores = std::thread::available_parallelism().map_or(1, |n| n.get());
    format!("{model}, {cores} cores")
}

fn find(rows: &[Row], what: &str, events: usize) -> Row {
    *rows.iter().find(|r| r.what == what && r.events == events).expect("a row of this name")
}

fn goal(what: &str, found: f64, most: f64) {
    let verdict = if found <= most { "met" } else { "missed" };
    println!("- {what}: {} (goal: at most {most}; {verdict})", ratio(found));
}

pub fn print(rows: &[Row], rounds: usize) {
    println!("{}; medians of {rounds} rounds, buffers warm.\n", machine());
    println!("| Call | Events | Engraver | Anew | Bare | Limit | Anew / engraver | Engraver / bare | Engraver / limit | Goal | The bare work |");
    println!("|---|--:|--:|--:|--:|--:|--:|--:|--:|---|---|");
    for r in rows {
        let [verdict, bare] = [r.engraver, r.bare].map(|t| verdict(&r.missed(t)));
        let ratios = [r.anew / r.engraver, r.engraver / r.bare, r.engraver / r.limit].map(ratio).join(" | ");
        let times = [r.engraver, r.anew, r.bare, r.limit].map(time).join(" | ");
        println!("| {} | {} | {times} | {ratios} | {verdict} | {bare} |", r.what, r.events);
    }
    println!();
    let (last, first) = (find(rows, "show 16 bars, the last", LARGEST), find(rows, "show 16 bars, the first", LARGEST));
    goal("show of the last bars / of the first, at 65,536 events", last.engraver / first.engraver, 2.0);
    let change = "change in the middle, as long";
    goal("change as long in the middle, at 65,536 events / at 64", find(rows, change, LARGEST).engraver / find(rows, change, 64).engraver, 3.0);
    let front = find(rows, "put at the front", LARGEST);
    goal("put at the front / memmove, at 65,536 events", front.engraver / front.limit, 4.0);
    let met = |time: fn(&Row) -> f64| rows.iter().filter(|r| r.missed(time(r)).is_empty()).count();
    println!("\n{} of {} rows meet their goals; {} would if a call were only its bare work.", met(|r| r.engraver), rows.len(), met(|r| r.bare));
}
