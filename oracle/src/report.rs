//! What a run says: counts by kind of case and by cause; whatever is unexplained, in full.
use crate::generate::Case;
use crate::judge::Findings;
use std::collections::BTreeMap;
use std::fs;
use std::process::ExitCode;

#[derive(Default)]
pub struct Report {
    cases: u64,
    unexplained: u64,
    kinds: BTreeMap<String, u64>,
    causes: BTreeMap<String, u64>,
}

impl Report {
    pub fn add(&mut self, name: &str, case: &Case, findings: Findings) {
        self.cases += 1;
        *self.kinds.entry(findings.kind.clone()).or_default() += 1;
        for (build, cause) in &findings.causes {
            *self.causes.entry(format!("{cause:?}, {build:?}")).or_default() += 1;
        }
        if !findings.complaints.is_empty() {
            self.unexplained += 1;
            self.complain(name, case, &findings);
        }
    }

    fn complain(&self, name: &str, case: &Case, findings: &Findings) {
        println!("UNEXPLAINED {name}: index {}, ids {:?}", case.index, &case.ids[..case.ids.len().min(40)]);
        println!("  {}; scratch {:?}, output {:?}", findings.kind, case.scratch, case.out);
        for complaint in &findings.complaints {
            println!("  {complaint}");
        }
        let plain = name.replace(|letter: char| !letter.is_ascii_alphanumeric(), "-");
        let file = format!("unexplained/{plain}.ttf");
        if fs::create_dir_all("unexplained").and_then(|()| fs::write(&file, &case.font)).is_ok() {
            println!("  its font is in {file}");
        }
    }

    pub fn print(&self) -> ExitCode {
        for (kind, count) in &self.kinds {
            println!("{count:>9}  {kind}");
        }
        println!("The crate differs, for a cause of docs/DIFFERENCES.md:");
        for (cause, count) in &self.causes {
            println!("{count:>9}  {cause}");
        }
        println!("{} cases, {} unexplained", self.cases, self.unexplained);
        ExitCode::from(u8::from(self.unexplained > 0))
    }
}
