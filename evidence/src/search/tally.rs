//! How many cases of each kind there were, how often each call gave each number, and which never came up.

use std::collections::BTreeMap;

/// Each call of the header, without its `link_survey_`, with the numbers of its refusals. 14 of a report of a file
/// stands for no room.
pub const REFUSALS: [(&str, &[u32]); 25] = [
    ("report", &[1, 2, 3, 6, 16, 4, 7, 8, 9, 14]),
    ("read", &[1, 2, 3, 6, 16, 14]),
    ("write", &[4, 5, 6, 15, 16, 7, 8, 9, 22, 14]),
    ("load", &[4, 5, 6, 15, 16, 7, 8, 9, 22]),
    ("load_stored", &[4, 5, 6, 15, 16, 7, 8, 9]),
    ("load_planned", &[4, 5, 6, 15, 16, 7, 8, 9, 17, 18, 22]),
    ("round", &[10, 11]),
    ("run", &[10, 11]),
    ("status", &[10]),
    ("unit", &[10, 12, 13]),
    ("link", &[10, 12, 13]),
    ("state_report", &[10, 12, 14]),
    ("foreman_line", &[10, 14]),
    ("service_line", &[10, 14]),
    ("ring", &[10, 12, 13, 14]),
    ("lifting_order", &[10, 12, 14, 19, 20]),
    ("doubtful", &[10, 12, 13, 15]),
    ("one_way", &[4, 5, 6, 7, 8, 9, 14]),
    ("live_open", &[4, 5, 6, 15, 16, 7, 8, 9]),
    ("live_add", &[4, 6, 16, 7, 8, 9, 10]),
    ("live_withdraw", &[4, 6, 16, 7, 8, 9, 10, 21]),
    ("seat_load", &[23, 4, 5, 6, 15, 16, 7, 8, 9, 22]),
    ("seat_load_stored", &[23, 4, 5, 6, 15, 16, 7, 8, 9]),
    ("seat_load_planned", &[23, 4, 5, 6, 15, 16, 7, 8, 9, 17, 18, 22]),
    ("tick", &[10, 11]),
];

const LAST_NUMBER: u32 = 23;

#[derive(Default)]
pub struct Tally {
    kinds: BTreeMap<&'static str, u64>,
    numbers: BTreeMap<(&'static str, u32), u64>,
    replies: BTreeMap<&'static str, u64>,
    stages: BTreeMap<u16, u64>,
}

impl Tally {
    pub fn kind(&mut self, kind: &'static str) {
        *self.kinds.entry(kind).or_default() += 1;
    }

    pub fn number(&mut self, call: &'static str, number: u32) {
        *self.numbers.entry((call, number)).or_default() += 1;
    }

    /// A reply of a call that has several.
    pub fn reply(&mut self, reply: &'static str) {
        *self.replies.entry(reply).or_default() += 1;
    }

    pub fn stage(&mut self, stage: u16) {
        *self.stages.entry(stage).or_default() += 1;
    }

    fn times(&self, number: u32) -> u64 {
        self.numbers.iter().filter(|&(&(_, came), _)| came == number).map(|(_, count)| count).sum()
    }

    /// The numbers of 1 to 23 that no call gave, and of each call those of its refusals, and 0, that it did not give.
    pub fn missing(&self) -> Vec<String> {
        let mut missing: Vec<String> =
            (1..=LAST_NUMBER).filter(|&number| self.times(number) == 0).map(|number| format!("{number}")).collect();
        for (call, refusals) in REFUSALS {
            let never = |number: &&u32| !self.numbers.contains_key(&(call, **number));
            missing.extend([0].iter().chain(refusals).filter(never).map(|number| format!("{call}: {number}")));
        }
        missing
    }

    pub fn print(&self) {
        println!("cases of each kind:");
        for (kind, count) in &self.kinds {
            println!("{count:>10}  {kind}");
        }
        println!("replies:");
        for (reply, count) in &self.replies {
            println!("{count:>10}  {reply}");
        }
        println!("calls by the number that came back (0: not refused; for a report of a file 14: no room):");
        let mut last = "";
        for ((call, number), count) in &self.numbers {
            if *call != last {
                print!("{}{call}:", if last.is_empty() { "  " } else { "\n  " });
                last = call;
            }
            print!("  {number} × {count}");
        }
        println!();
        let stages: Vec<String> = self.stages.iter().map(|(stage, count)| format!("  {stage} × {count}")).collect();
        println!("rounds and runs by the stage that they began in:{}", stages.concat());
        let numbers: Vec<String> =
            (1..=LAST_NUMBER).map(|number| format!("  {number} × {}", self.times(number))).collect();
        println!("refusals of all calls:{}", numbers.concat());
        let calls: u64 = self.numbers.values().sum();
        println!("{calls} calls, no difference");
    }
}
