//! The rules of docs/RULES.md with the counters of their branches.
use std::collections::BTreeMap;

/// How often each branch of each rule was met.
#[derive(Default)]
pub struct Coverage {
    counts: BTreeMap<(String, String), u64>,
}

/// What was run.
#[derive(Clone, Copy, PartialEq)]
pub enum Kind {
    Tables,
    Documents,
    Programs,
}

/// The rules that documents reach, and tables don't; and those of the programs, which are no calls of the archive.
const OF_DOCUMENTS: [&str; 14] = ["N1", "N2", "N3", "N4", "N5", "N6", "N7", "N8", "N9", "N10", "N11", "N13", "N14", "N15"];
const OF_PROGRAMS: [&str; 7] = ["P1", "P2", "P3", "P4", "P5", "P6", "N12"];

impl Coverage {
    pub fn here() -> Self {
        let mut c = Coverage::default();
        for s in cover::slots() {
            c.add(s.rule, s.branch, s.count());
        }
        c
    }
    pub fn add(&mut self, rule: &str, branch: &str, n: u64) {
        *self.counts.entry((rule.to_string(), branch.to_string())).or_default() += n;
    }
    pub fn rows(&self) -> impl Iterator<Item = (&str, &str, u64)> {
        self.counts.iter().map(|((r, b), n)| (r.as_str(), b.as_str(), *n))
    }

    /// The rules in the page's order, each with its branches; and what is never reached, which is to be nothing.
    pub fn told(&self, page: &str, kind: Kind, whole: bool) -> (String, Vec<String>) {
        let rules: Vec<&str> =
            page.lines().filter_map(|l| l.strip_prefix("**")?.split_once("** ").map(|p| p.0)).filter(|r| is_rule(r)).collect();
        let (mut out, mut never) = (String::new(), vec![]);
        let (mut reached, mut branches, mut met) = (0, 0, 0);
        for rule in &rules {
            let of: Vec<(&str, u64)> = self.rows().filter(|r| r.0 == *rule).map(|r| (r.1, r.2)).collect();
            let of_kind = match (OF_PROGRAMS.contains(rule), OF_DOCUMENTS.contains(rule)) {
                (true, _) => Kind::Programs,
                (_, true) => Kind::Documents,
                _ => Kind::Tables,
            };
            let elsewhere = of_kind != kind;
            let total: u64 = of.iter().map(|b| b.1).sum();
            reached += (total > 0) as usize;
            if elsewhere && total == 0 {
                continue;
            }
            branches += of.len();
            met += of.iter().filter(|b| b.1 > 0).count();
            if whole {
                let parts: Vec<String> = of.iter().map(|(b, n)| format!("{b} {n}")).collect();
                out += &format!("{rule}: {}\n", parts.join("; "));
            }
            if of.is_empty() {
                never.push(format!("{rule}: it has no counter"));
            } else if total == 0 {
                never.push(format!("{rule}: never reached"));
            } else if !elsewhere {
                never.extend(of.iter().filter(|b| b.1 == 0).map(|b| format!("{rule}: never reached: {}", b.0)));
            }
        }
        let unknown: Vec<&str> = self.rows().map(|r| r.0).filter(|r| !rules.contains(r)).collect();
        never.extend(unknown.iter().map(|r| format!("{r}: docs/RULES.md has no such rule")));
        out += &format!("{reached} of {} rules reached, {met} of {branches} branches\n", rules.len());
        (out, never)
    }
}

fn is_rule(name: &str) -> bool {
    name.len() > 1 && name.starts_with(|c: char| c.is_ascii_uppercase()) && name[1..].bytes().all(|b| b.is_ascii_digit())
}
