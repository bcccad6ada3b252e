//! Makes a plan and a list of records: `inputs TASKS RECORDS SEED DIR` writes DIR/plan.oil and DIR/calls.

use std::fmt::Write;

struct Random(u64);

impl Random {
    fn next(&mut self, below: u64) -> u64 {
        self.0 ^= self.0 << 13;
        self.0 ^= self.0 >> 7;
        self.0 ^= self.0 << 17;
        (self.0 >> 11) % below
    }
}

fn main() -> std::io::Result<()> {
    let args: Vec<String> = std::env::args().collect();
    let tasks: u64 = args[1].parse().expect("how many tasks");
    let records: u64 = args[2].parse().expect("how many records");
    let mut random = Random(args[3].parse::<u64>().expect("a seed") * 2 + 1);
    let shared = tasks.clamp(1, 8);
    let mut plan = String::from("OIL_VERSION = \"2.5\";\nCPU yard {\n");
    for r in 0..shared {
        writeln!(plan, "RESOURCE r{r} {{ RESOURCEPROPERTY = STANDARD; }};").expect("text");
        writeln!(plan, "EVENT e{r} {{ MASK = AUTO; }};").expect("text");
    }
    let step = 64 / tasks;
    let mut numbers = Vec::new();
    for t in 0..tasks {
        let number = t * step;
        numbers.push(number);
        write!(plan, "TASK t{t} {{ PRIORITY = {number}; SCHEDULE = FULL; ACTIVATION = 1; AUTOSTART = FALSE;").expect("text");
        for r in 0..shared {
            if random.next(2) == 0 {
                write!(plan, " RESOURCE = r{r};").expect("text");
            }
            if random.next(2) == 0 {
                write!(plan, " EVENT = e{r};").expect("text");
            }
        }
        plan.push_str(" };\n");
    }
    plan.push_str("};\n");
    let mut calls = String::new();
    for _ in 0..records {
        let r = random.next(shared);
        let t = numbers[random.next(tasks) as usize];
        match random.next(12) {
            0..=2 => writeln!(calls, "release,{:x}", 1u64 << t),
            3 => writeln!(calls, "release,{:X}", numbers.iter().fold(0u64, |v, n| if n % 3 == t % 3 { v | 1 << n } else { v })),
            4 => writeln!(calls, "lock,{r}"),
            5 => writeln!(calls, "unlock,{r}"),
            6..=8 => writeln!(calls, "exit"),
            9 => writeln!(calls, "signal,{r}"),
            10 => writeln!(calls, "signalrelease,{r}"),
            _ => writeln!(calls, "test,{r}"),
        }
        .expect("text");
    }
    std::fs::create_dir_all(&args[4])?;
    std::fs::write(format!("{}/plan.oil", args[4]), plan)?;
    std::fs::write(format!("{}/calls", args[4]), calls)
}
