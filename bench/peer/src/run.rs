//! Runs of a plan: by recorded outcomes, each request finished before the next starts, or by recorded events.

use std::collections::{BTreeSet, HashSet};
use std::io::Write;

use serde::Serialize;
use serde_json::{Map, Value};

use crate::plan::{Need, Plan};
use crate::{as_map, at, is_whole, read_headers, text, whole, write_list, Checked, Headers};

/// The headers and the body of an outcome.
type Parts<'a> = (Headers<'a>, Option<&'a Value>);

struct Outcome<'a> {
    status: u16,
    headers: Headers<'a>,
    body: Option<&'a Value>,
}

/// A response; the order of its members is that of its text.
#[derive(Serialize)]
struct Response<'a> {
    #[serde(rename = "atomicityGroup", skip_serializing_if = "Option::is_none")]
    group: Option<&'a str>,
    #[serde(skip_serializing_if = "Option::is_none")]
    body: Option<&'a Value>,
    #[serde(serialize_with = "as_map", skip_serializing_if = "Vec::is_empty")]
    headers: &'a Headers<'a>,
    id: &'a str,
    status: u16,
}

struct Run<'p> {
    plan: &'p Plan<'p>,
    started: Vec<bool>,
    outcomes: Vec<Option<Outcome<'p>>>,
    unmet: Vec<u32>,
    dependents: Vec<Vec<u32>>,
    group_dependents: Vec<Vec<u32>>,
    unsuccessful: Vec<u32>,
    failed: Vec<bool>,
    ready: BTreeSet<u32>,
    running: BTreeSet<u32>,
}

impl<'p> Run<'p> {
    fn new(plan: &'p Plan<'p>) -> Self {
        let (count, units) = (plan.requests.len(), plan.members.len());
        let (mut dependents, mut group_dependents) = (vec![Vec::new(); count], vec![Vec::new(); units]);
        let mut unmet = Vec::with_capacity(count);
        for i in 0..count {
            for need in plan.needs(i) {
                match *need {
                    Need::One(j) => dependents[j as usize].push(i as u32),
                    Need::Group(unit) => group_dependents[unit as usize].push(i as u32),
                }
            }
            unmet.push(plan.needs(i).len() as u32);
        }
        Run {
            plan,
            started: vec![false; count],
            outcomes: (0..count).map(|_| None).collect(),
            dependents,
            group_dependents,
            unsuccessful: plan.members.iter().map(|members| members.end - members.start).collect(),
            failed: vec![false; units],
            ready: (0..count as u32).filter(|i| unmet[*i as usize] == 0).collect(),
            running: BTreeSet::new(),
            unmet,
        }
    }

    fn start(&mut self, i: u32) -> Result<(), &'static str> {
        if self.started[i as usize] {
            return Err("S1 AlreadyStarted");
        }
        if !self.ready.remove(&i) {
            let failed = self.failed[self.plan.unit_of[i as usize] as usize];
            return Err(if failed { "S3 UnitFailed" } else { "S4 Waiting" });
        }
        self.started[i as usize] = true;
        self.running.insert(i);
        Ok(())
    }

    fn report(&mut self, i: u32, outcome: Outcome<'p>) -> Result<(), &'static str> {
        if !self.running.contains(&i) {
            return Err("P1 NotRunning");
        }
        if !(200..600).contains(&outcome.status) {
            return Err("P2 BadStatus");
        }
        self.running.remove(&i);
        let unit = self.plan.unit_of[i as usize];
        if outcome.status < 300 {
            self.succeed(i, unit as usize);
        } else {
            self.fail(unit);
        }
        self.outcomes[i as usize] = Some(outcome);
        Ok(())
    }

    fn succeed(&mut self, i: u32, unit: usize) {
        let Run { plan, dependents, group_dependents, unsuccessful, unmet, failed, ready, .. } = self;
        unsuccessful[unit] -= 1;
        let after_group: &[u32] = if unsuccessful[unit] == 0 { &group_dependents[unit] } else { &[] };
        for &j in dependents[i as usize].iter().chain(after_group) {
            unmet[j as usize] -= 1;
            if unmet[j as usize] == 0 && !failed[plan.unit_of[j as usize] as usize] {
                ready.insert(j);
            }
        }
    }

    fn fail(&mut self, unit: u32) {
        let mut units = vec![unit];
        while let Some(unit) = units.pop() {
            if std::mem::replace(&mut self.failed[unit as usize], true) {
                continue;
            }
            for i in self.plan.members[unit as usize].clone() {
                self.ready.remove(&i);
                units.extend(self.dependents[i as usize].iter().map(|j| self.plan.unit_of[*j as usize]));
            }
            units.extend(self.group_dependents[unit as usize].iter().map(|j| self.plan.unit_of[*j as usize]));
        }
    }

    fn response(&self, i: usize) -> Response<'_> {
        const NONE: &Headers = &Vec::new();
        let (group, id) = (self.plan.requests[i].group, self.plan.requests[i].id);
        match &self.outcomes[i] {
            Some(it) if it.status >= 300 || self.unsuccessful[self.plan.unit_of[i] as usize] == 0 => {
                Response { group, body: it.body, headers: &it.headers, id, status: it.status }
            }
            _ => Response { group, body: None, headers: NONE, id, status: 424 },
        }
    }

    fn write_responses(&self, out: &mut impl Write) -> Checked<()> {
        write_list(out, "responses", (0..self.outcomes.len()).map(|i| self.response(i)))
    }
}

/// The elements of a document whose one member is this array.
fn only<'a>(document: &'a Value, name: &str) -> Option<&'a Vec<Value>> {
    document.as_object().filter(|members| members.len() == 1)?.get(name)?.as_array()
}

/// The members of an outcome or a report, or nothing if it has others.
fn read_outcome<'a>(members: &'a Map<String, Value>, id_name: &str) -> Option<(&'a str, &'a Value, Parts<'a>)> {
    let (mut id, mut status, mut headers, mut body) = Default::default();
    for (name, value) in members {
        let given = Some(value).filter(|value| !value.is_null());
        match name.as_str() {
            "status" => status = Some(value).filter(|status| status.is_number()),
            "headers" => headers = given,
            "body" => body = given,
            name if name == id_name => id = value.as_str(),
            _ => return None,
        }
    }
    Some((id?, status?, (read_headers(headers).ok()?, body)))
}

fn read_outcomes<'a>(plan: &Plan, document: &'a Value) -> Checked<Vec<Option<Outcome<'a>>>> {
    let elements = only(document, "outcomes").ok_or_else(|| whole("F60 BadOutcomes", "outcomes"))?;
    let mut outcomes: Vec<_> = plan.requests.iter().map(|_| None).collect();
    let mut unknown = HashSet::new();
    for (k, element) in elements.iter().enumerate() {
        let found = element.as_object().and_then(|members| read_outcome(members, "id"));
        let (id, status, (headers, body)) = found.ok_or_else(|| at("F60 BadOutcomes", "outcomes", k))?;
        let position = plan.positions.get(id).map(|i| *i as usize);
        if position.map_or_else(|| !unknown.insert(id), |i| outcomes[i].is_some()) {
            return Err(at("F61 OutcomeTwice", "outcomes", k));
        }
        let status = status.as_u64().filter(|status| (200..600).contains(status));
        let status = status.ok_or_else(|| at("F62 BadStatus", "outcomes", k))? as u16;
        if body.is_some_and(|body| !is_whole(body)) {
            return Err(at("F63 NotWhole", "outcomes", k));
        }
        if let Some(i) = position {
            outcomes[i] = Some(Outcome { status, headers, body });
        }
    }
    Ok(outcomes)
}

pub fn replay(plan: &Plan, document: &Value, out: &mut impl Write) -> Checked<()> {
    let mut outcomes = read_outcomes(plan, document)?;
    let mut run = Run::new(plan);
    while let Some(i) = run.ready.first().copied() {
        run.start(i)?;
        let outcome = outcomes[i as usize].take().ok_or_else(|| at("F80 NoOutcome", "requests", i as usize))?;
        run.report(i, outcome)?;
    }
    run.write_responses(out)
}

enum Event<'a> {
    Start(u32),
    Report(u32, Outcome<'a>),
}

/// The id that an event names, and the outcome of a report.
fn read_event(element: &Value) -> Option<(&str, Option<Outcome<'_>>)> {
    let members = element.as_object()?;
    if let Some(id) = text(members, "start") {
        return (members.len() == 1).then_some((id, None));
    }
    let (id, status, (headers, body)) = read_outcome(members, "report")?;
    let status = status.as_u64().and_then(|status| u16::try_from(status).ok())?;
    Some((id, Some(Outcome { status, headers, body })))
}

fn read_events<'a>(plan: &Plan, document: &'a Value) -> Checked<Vec<Event<'a>>> {
    let elements = only(document, "events").ok_or_else(|| whole("F64 BadEvents", "events"))?;
    let (mut events, mut unknown) = (Vec::with_capacity(elements.len()), None);
    for (k, element) in elements.iter().enumerate() {
        let (id, outcome) = read_event(element).ok_or_else(|| at("F64 BadEvents", "events", k))?;
        if outcome.as_ref().and_then(|outcome| outcome.body).is_some_and(|body| !is_whole(body)) {
            return Err(at("F63 NotWhole", "events", k));
        }
        match (plan.positions.get(id), outcome) {
            (None, _) => unknown = unknown.or(Some(k)),
            (Some(i), None) => events.push(Event::Start(*i)),
            (Some(i), Some(outcome)) => events.push(Event::Report(*i, outcome)),
        }
    }
    match unknown {
        Some(k) => Err(at("F65 UnknownEvent", "events", k)),
        None => Ok(events),
    }
}

pub fn run(plan: &Plan, document: &Value, out: &mut impl Write) -> Checked<()> {
    let events = read_events(plan, document)?;
    let mut run = Run::new(plan);
    for (k, event) in events.into_iter().enumerate() {
        let noted = match event {
            Event::Start(i) => run.start(i),
            Event::Report(i, outcome) => run.report(i, outcome),
        };
        noted.map_err(|rule| at(rule, "events", k))?;
    }
    if !(run.ready.is_empty() && run.running.is_empty()) {
        return Err(whole("F66 Unfinished", "events"));
    }
    run.write_responses(out)
}
