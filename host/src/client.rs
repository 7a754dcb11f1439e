//! Asks the boards of a request, side by side, and shows what they answer.

use std::sync::mpsc;
use std::thread;

use crate::boards::Unit;
use crate::exchange::{Exchange, Failure, Response};
use crate::ffi::Command;
use crate::outcome::{self, Outcome};
use crate::output;
use crate::request::{Kind, Question, Request};
use crate::target::{self, Target};

/// Asks every board and shows each answer when it is there; whether all went well.
pub fn run(request: &Request) -> bool {
    if let Some(warning) = &request.warning {
        output::warn(warning);
    }
    thread::scope(|scope| {
        let (sender, receiver) = mpsc::channel();
        for question in &request.questions {
            let (sender, unit) = (sender.clone(), &question.unit);
            let ask = move || sender.send((unit, ask(request, question)));
            if let Err(error) = thread::Builder::new().spawn_scoped(scope, ask) {
                output::tell(unit, &format!("cannot be asked: {error}"));
            }
        }
        drop(sender);
        let shown = receiver
            .iter()
            .filter(|(unit, outcome)| output::show(request, unit, outcome));
        shown.count() == request.questions.len()
    })
}

fn ask(request: &Request, question: &Question) -> Result<Outcome, String> {
    let unit = &question.unit;
    let target = match request.kind {
        Kind::Search => target::resolve_any(&unit.host)?,
        Kind::Rows | Kind::Schedule => target::resolve(&unit.host)?,
    };
    let packets = question.packets();
    let packets = packets.map_err(|refusal| format!("the request is {refusal}"))?;
    let mut answers: Vec<(&[Command], Response)> = Vec::new();
    for commands in packets {
        let is_first = answers.is_empty();
        let responses = exchange(request, unit, target, commands);
        let responses = responses.map_err(|failure| explain(request, failure, is_first))?;
        answers.extend(responses.into_iter().map(|response| (commands, response)));
    }
    Ok(outcome::of(request, unit, target, answers))
}

fn exchange(
    request: &Request,
    unit: &Unit,
    target: Target,
    commands: &[Command],
) -> Result<Vec<Response>, Failure> {
    let exchange = Exchange {
        target,
        unit_type: unit.unit_type,
        id: &unit.id,
        password: &unit.password,
        limit: request.limit,
        retries: request.retries,
    };
    exchange.run(commands, |what, address, bytes| {
        if request.dump {
            output::show_packet(what, address, bytes);
        }
    })
}

/// A board that has answered knows the ID and the password, and a search bears none.
fn explain(request: &Request, failure: Failure, is_first: bool) -> String {
    let may_be_wrong = is_first && request.kind != Kind::Search;
    let hint = match may_be_wrong {
        true => " (a wrong ID or password gets none either)",
        false => "",
    };
    let doubt = match request.is_change() {
        true => "; the change may have been made",
        false => "",
    };
    match failure {
        Failure::Silence(text) => format!("{text}{hint}{doubt}"),
        Failure::Ignored(text) => format!("{text}{doubt}"),
        Failure::Other(text) => text,
    }
}
