//! Holds the answers to one case against each other.
use crate::answer::Answer;
use crate::case::Case;
use crate::expect::{normal, said, Said};
use crate::listed::{claim, Id, LABELS};
use crate::subject::{Model, Part, Subject};
use crate::text::cut;

/// How a case came out.
pub struct Outcome {
    /// The number of the model's refusal, 0 where it is none.
    pub refusal: u32,
    pub equal: u64,
    pub listed: Vec<Id>,
    /// Functions of the library that gave the model's answer.
    pub library: Vec<&'static str>,
    /// What is wrong, where something is.
    pub wrong: Option<String>,
}

pub fn judge(case: &Case, asked: &[Case], lines: &[String], library: Option<&mut dyn Subject>) -> Outcome {
    let model = Model.answers(case);
    let refusal = match &model[0].1 {
        Answer::Refused { number, .. } => *number,
        _ => 0,
    };
    let mut outcome = Outcome { refusal, equal: 0, listed: vec![], library: vec![], wrong: None };
    for (part, line) in asked.iter().zip(lines) {
        match against_oracle(part, line) {
            Ok(None) => outcome.equal += 1,
            Ok(Some(id)) => outcome.listed.push(id),
            Err(wrong) => {
                outcome.wrong = Some(wrong);
                return outcome;
            }
        }
    }
    if let Some(library) = library {
        against_model(&model, &library.answers(case), &mut outcome);
    }
    outcome
}

/// Equal, listed, or what is wrong.
fn against_oracle(case: &Case, line: &str) -> Result<Option<Id>, String> {
    let line = normal(case, line);
    let wanted = said(case);
    if wanted.fits(&line) {
        return Ok(None);
    }
    let wrong = |wanted: &Said, why: &str| {
        let asked = cut(&case.line(), 4000);
        Err(format!(
            "the Rust's debug build {why}\n  asked     {asked}\n  document  {}\n  the Rust  {}",
            cut(&format!("{wanted:?}"), 3000),
            cut(&line, 3000)
        ))
    };
    if line.starts_with("badline") || line.starts_with("skip") {
        return wrong(&wanted, "was asked a line that it does not take");
    }
    match claim(case) {
        None => wrong(&wanted, "says otherwise than document 01, and no listed difference claims the input"),
        Some((id, instead)) if instead.fits(&line) => Ok(Some(id)),
        Some((id, instead)) => wrong(&instead, &format!("says otherwise than the listed difference {} has it", LABELS[id as usize].name)),
    }
}

/// Each answer that the library gave has to be the model's.
fn against_model(model: &[Part], library: &[Part], outcome: &mut Outcome) {
    for (name, got) in library {
        let function = name.split(',').next();
        let wanted = model.iter().find(|part| Some(part.0) == function);
        match wanted {
            Some((_, wanted)) if wanted == got => outcome.library.push(name),
            _ => {
                let wanted = cut(&format!("{:?}", wanted.map(|part| &part.1)), 3000);
                let got = cut(&format!("{got:?}"), 3000);
                outcome.wrong = Some(format!(
                    "the library answers otherwise than document 01\n  function  raft_log_{name}\n  document  {wanted}\n  library   {got}"
                ));
                return;
            }
        }
    }
}
