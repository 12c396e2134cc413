//! The plan of a batch: units, dependencies and levels; and whether responses fit it.

use std::collections::HashMap;
use std::io::Write;
use std::ops::Range;

use serde_json::Value;

use crate::batch::Request;
use crate::{at, present, text, whole, Checked};

#[derive(Clone, Copy)]
pub enum Need {
    One(u32),
    Group(u32),
}

pub struct Plan<'a> {
    pub requests: Vec<Request<'a>>,
    pub positions: HashMap<&'a str, u32>,
    pub group_count: usize,
    pub unit_of: Vec<u32>,
    pub members: Vec<Range<u32>>,
    needs: Vec<Need>,
    need_ends: Vec<u32>,
    levels: Vec<u32>,
}

impl Plan<'_> {
    pub fn needs(&self, i: usize) -> &[Need] {
        let start = if i == 0 { 0 } else { self.need_ends[i - 1] };
        &self.needs[start as usize..self.need_ends[i] as usize]
    }

    fn name(&self, need: Need) -> &str {
        match need {
            Need::One(j) => self.requests[j as usize].id,
            Need::Group(unit) => self.requests[self.members[unit as usize].start as usize].group.unwrap_or("*"),
        }
    }
}

/// The dependency that a name of request `i` stands for.
fn named(plan: &Plan, groups: &HashMap<&str, u32>, i: u32, name: &str) -> Result<Need, &'static str> {
    let request = &plan.requests[i as usize];
    if let Some(&j) = plan.positions.get(name) {
        match plan.requests[j as usize].group {
            _ if j >= i => Err("F41 ForwardName"),
            Some(group) if request.group != Some(group) && !request.names.contains(&group) => Err("F43 GroupNotListed"),
            _ => Ok(Need::One(j)),
        }
    } else if let Some(&unit) = groups.get(name) {
        match plan.members[unit as usize].start {
            _ if plan.unit_of[i as usize] == unit => Err("F42 OwnGroup"),
            start if start > i => Err("F41 ForwardName"),
            _ => Ok(Need::Group(unit)),
        }
    } else {
        Err("F40 UnknownName")
    }
}

/// The request that the URL of request `i` refers to.
fn referred(plan: &Plan, i: u32, reference: &str) -> Result<Need, &'static str> {
    let request = &plan.requests[i as usize];
    let &j = plan.positions.get(reference).ok_or("F44 UnknownReference")?;
    match plan.requests[j as usize].group {
        _ if j >= i => Err("F45 ForwardReference"),
        _ if request.names.contains(&reference) => Ok(Need::One(j)),
        Some(group) if request.group == Some(group) || request.names.contains(&group) => Ok(Need::One(j)),
        _ => Err("F46 ReferenceNotListed"),
    }
}

pub fn check(requests: Vec<Request<'_>>) -> Checked<Plan<'_>> {
    let count = requests.len();
    let (mut unit_of, mut members) = (Vec::with_capacity(count), Vec::<Range<u32>>::new());
    let mut groups = HashMap::new();
    for (i, request) in requests.iter().enumerate() {
        if i == 0 || request.group.is_none() || requests[i - 1].group != request.group {
            if let Some(group) = request.group {
                groups.entry(group).or_insert(members.len() as u32);
            }
            members.push(i as u32..i as u32);
        }
        let unit = members.len() - 1;
        members[unit].end += 1;
        unit_of.push(unit as u32);
    }
    let mut positions = HashMap::with_capacity(count);
    for (i, request) in requests.iter().enumerate() {
        if positions.insert(request.id, i as u32).is_some() {
            return Err(at("F30 IdTwice", "requests", i));
        }
        if groups.contains_key(request.id) {
            return Err(at("F31 IdIsGroup", "requests", i));
        }
        if request.group.is_some_and(|group| groups[group] != unit_of[i]) {
            return Err(at("F32 GroupSplit", "requests", i));
        }
    }
    let (needs, need_ends, levels) = (Vec::with_capacity(count), Vec::with_capacity(count), Vec::with_capacity(count));
    let mut unit_levels = vec![0; members.len()];
    let group_count = groups.len();
    let mut plan = Plan { requests, positions, group_count, unit_of, members, needs, need_ends, levels };
    for i in 0..count {
        let (names, start) = (plan.requests[i].names.len(), plan.needs.len());
        let (mut broken, mut level) = (None::<&str>, 0);
        for k in 0..names {
            match named(&plan, &groups, i as u32, plan.requests[i].names[k]) {
                Ok(need) => plan.needs.push(need),
                Err(rule) => broken = Some(broken.map_or(rule, |other| other.min(rule))),
            }
        }
        if let Some(rule) = broken {
            return Err(at(rule, "requests", i));
        }
        let request = &plan.requests[i];
        if let Some(reference) = &request.reference {
            let need = referred(&plan, i as u32, reference).map_err(|rule| at(rule, "requests", i))?;
            if !request.names.contains(&reference.as_str()) {
                plan.needs.push(need);
            }
        }
        for need in &plan.needs[start..] {
            level = level.max(match *need {
                Need::One(j) => plan.levels[j as usize] + 1,
                Need::Group(unit) => unit_levels[unit as usize] + 1,
            });
        }
        plan.need_ends.push(plan.needs.len() as u32);
        plan.levels.push(level);
        let unit = plan.unit_of[i] as usize;
        unit_levels[unit] = level.max(unit_levels[unit]);
    }
    Ok(plan)
}

pub fn write_plan(plan: &Plan, out: &mut impl Write) -> Checked<()> {
    for (i, request) in plan.requests.iter().enumerate() {
        let group = request.group.unwrap_or("*");
        write!(out, "{i} {} level {} group {group} needs ", request.id, plan.levels[i])?;
        for (k, need) in plan.needs(i).iter().enumerate() {
            write!(out, "{}{}", if k == 0 { "" } else { "," }, plan.name(*need))?;
        }
        writeln!(out, "{}", if plan.needs(i).is_empty() { "*" } else { "" })?;
    }
    Ok(())
}

/// The id, the status and the group of a response.
fn read_response(element: &Value) -> Option<(&str, u64, Option<&str>)> {
    let members = element.as_object()?;
    let status = members.get("status")?.as_u64().filter(|status| (100..600).contains(status))?;
    let group = match present(members, "atomicityGroup") {
        None => None,
        Some(group) => Some(group.as_str()?),
    };
    Some((text(members, "id")?, status, group))
}

pub fn match_responses(plan: &Plan, document: &Value, out: &mut impl Write) -> Checked<()> {
    let Some(Value::Array(elements)) = document.get("responses") else {
        return Err(whole("F70 BadResponses", "responses"));
    };
    let mut responses = Vec::with_capacity(elements.len());
    for (k, element) in elements.iter().enumerate() {
        responses.push(read_response(element).ok_or_else(|| at("F70 BadResponses", "responses", k))?);
    }
    let mut answers = vec![None; plan.requests.len()];
    for (k, (id, status, group)) in responses.into_iter().enumerate() {
        let &i = plan.positions.get(id).ok_or_else(|| at("F71 UnknownResponse", "responses", k))?;
        if answers[i as usize].replace((status, group)).is_some() {
            return Err(at("F72 ResponseTwice", "responses", k));
        }
    }
    if let Some(i) = answers.iter().position(Option::is_none) {
        return Err(at("F73 ResponseMissing", "requests", i));
    }
    let answers: Vec<_> = answers.into_iter().flatten().collect();
    let succeeded = |i: u32| answers[i as usize].0 / 100 == 2;
    for (i, request) in plan.requests.iter().enumerate() {
        if answers[i].1 != request.group {
            return Err(at("F74 GroupDiffers", "requests", i));
        }
        let mut needs = plan.needs(i).iter();
        let satisfied = |need: &Need| match need {
            Need::One(j) => succeeded(*j),
            Need::Group(unit) => plan.members[*unit as usize].clone().all(succeeded),
        };
        if succeeded(i as u32) && !needs.all(satisfied) {
            return Err(at("F75 UnsoundSuccess", "requests", i));
        }
    }
    writeln!(out, "ok {} responses", answers.len())?;
    for (request, (status, _)) in plan.requests.iter().zip(&answers) {
        writeln!(out, "{} {status}", request.id)?;
    }
    Ok(())
}
