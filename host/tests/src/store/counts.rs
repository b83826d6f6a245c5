//! How often each call was answered how.

use std::collections::BTreeMap;

#[derive(Clone, Debug, Default)]
pub struct Counts {
    pub answers: BTreeMap<(&'static str, u64), u64>,
    pub calls: u64,
    /// Calls that the original answered too.
    pub compared: u64,
    pub short_reads: u64,
    pub steps_left: u64,
    pub full_caches: u64,
    pub freed: u64,
    /// Imports that an opening has closed.
    pub closed: u64,
    /// Direct calls in an import that the original is not asked for.
    pub left_out: u64,
    /// Empty direct writes in an import, which are accepted.
    pub empty_in_import: u64,
}

/// Each call with the refusals that can arise in it, but for 35.
pub const ARISING: &[(&str, &[u64])] = &[
    ("open", &[0, 1, 2, 3, 4, 32]),
    ("begin_update", &[0, 10, 13]),
    ("file_size", &[0]),
    ("read_at", &[0]),
    ("write_at", &[0, 10, 20, 30, 31, 32, 33, 34]),
    ("truncate", &[0, 10, 20, 30, 31, 32, 33, 34]),
    ("commit_update", &[0, 20, 31, 32]),
    ("rollback_update", &[0]),
    ("begin_import", &[0, 10, 12, 20]),
    ("import_chunk", &[0, 11, 12, 21, 22, 32]),
    ("finish_import", &[0, 11, 12, 23, 24]),
    ("cancel_import", &[0, 11, 12]),
    ("export_chunk", &[0, 12]),
    ("checksum", &[0, 12]),
    ("refresh_checksum", &[0, 12]),
    ("refresh_checksum_chunk", &[0, 10, 12, 25]),
    ("dirty_page", &[0]),
];

impl Counts {
    pub fn count(&mut self, name: &'static str, number: u64) {
        *self.answers.entry((name, number)).or_default() += 1;
        self.calls += 1;
    }

    pub fn of(&self, name: &'static str, number: u64) -> u64 {
        self.answers.get(&(name, number)).copied().unwrap_or(0)
    }

    pub fn add(&mut self, other: &Counts) {
        for (answer, count) in &other.answers {
            *self.answers.entry(*answer).or_default() += count;
        }
        self.calls += other.calls;
        self.compared += other.compared;
        self.short_reads += other.short_reads;
        self.steps_left += other.steps_left;
        self.full_caches += other.full_caches;
        self.freed += other.freed;
        self.closed += other.closed;
        self.left_out += other.left_out;
        self.empty_in_import += other.empty_in_import;
    }

    /// A line a call: each number with how often it was the answer.
    pub fn table(&self) -> String {
        let mut lines = Vec::new();
        for (name, _) in ARISING {
            let of_it = self.answers.iter().filter(|((call, _), _)| call == name);
            let parts: Vec<String> = of_it
                .map(|((_, number), count)| format!("{number}: {count}"))
                .collect();
            lines.push(format!("  {name:<23} {}", parts.join(", ")));
        }
        lines.join("\n")
    }

    /// What can arise and never did.
    pub fn missing(&self) -> Vec<(&'static str, u64)> {
        let all = ARISING
            .iter()
            .flat_map(|(name, numbers)| numbers.iter().map(|number| (*name, *number)));
        all.filter(|(name, number)| self.of(name, *number) == 0)
            .collect()
    }
}
