//! The requests of a batch, each alone, and their canonical text.

use std::io::Write;

use percent_encoding::percent_decode_str;
use serde::Serialize;
use serde_json::Value;

use crate::{as_map, at, is_whole, read_headers, whole, write_list, Checked, Headers};

const MAX_REQUESTS: usize = 10_000;
const METHODS: [&str; 5] = ["delete", "get", "patch", "post", "put"];
const RESERVED: [&[u8]; 7] = [b"batch", b"crossjoin", b"all", b"entity", b"root", b"id", b"metadata"];

/// A request; its members and their order are those of the canonical text.
#[derive(Serialize)]
pub struct Request<'a> {
    #[serde(rename = "atomicityGroup", skip_serializing_if = "Option::is_none")]
    pub group: Option<&'a str>,
    #[serde(skip_serializing_if = "Option::is_none")]
    body: Option<&'a Value>,
    #[serde(rename = "dependsOn", skip_serializing_if = "Vec::is_empty")]
    pub names: Vec<&'a str>,
    #[serde(serialize_with = "as_map", skip_serializing_if = "Vec::is_empty")]
    headers: Headers<'a>,
    pub id: &'a str,
    method: &'static str,
    url: &'a str,
    #[serde(skip)]
    pub reference: Option<String>,
}

fn is_id_byte(byte: u8) -> bool {
    byte.is_ascii_alphanumeric() || b"-._~".contains(&byte)
}

fn is_request_id(text: &str) -> bool {
    !text.is_empty() && text.bytes().all(is_id_byte)
}

fn is_base64url(text: &str) -> bool {
    let digits = text.trim_end_matches('=');
    let allowed = |byte: u8| byte.is_ascii_alphanumeric() || byte == b'-' || byte == b'_';
    text.len() - digits.len() <= 2 && digits.len() % 4 != 1 && digits.bytes().all(allowed)
}

fn is_body_of(headers: &Headers, body: &Value) -> bool {
    let content_type = headers.iter().find(|(name, _)| name == "content-type").map_or("", |(_, value)| value);
    let media = content_type.split(';').next().unwrap_or("").trim_matches([' ', '\t']).to_ascii_lowercase();
    if media.is_empty() || media == "application/json" || media.ends_with("+json") {
        true
    } else if media.starts_with("text/") {
        body.is_string()
    } else {
        body.as_str().is_some_and(is_base64url)
    }
}

fn is_nested_batch(url: &str) -> bool {
    let end = url.bytes().position(|byte| byte == b'?' || byte == b'#').unwrap_or(url.len());
    let segment = url[..end].rsplit('/').next().unwrap_or("");
    percent_decode_str(segment).eq(b"$batch".iter().copied())
}

/// The id that the URL refers to, if any.
fn reference_of(url: &str) -> Result<Option<String>, &'static str> {
    if !url.starts_with(['$', '%']) {
        return Ok(None);
    }
    let segment = url.split(['/', '?', '#']).next().unwrap_or("");
    let decoded: Vec<u8> = percent_decode_str(segment).collect();
    let Some(name) = decoded.strip_prefix(b"$") else { return Ok(None) };
    let run = name.iter().take_while(|byte| is_id_byte(**byte)).count();
    if RESERVED.contains(&&name[..run]) {
        Ok(None)
    } else if run == 0 || run < name.len() {
        Err("F23 BadReference")
    } else {
        Ok(Some(String::from_utf8_lossy(name).into_owned()))
    }
}

fn read_names(value: Option<&Value>) -> Option<Vec<&str>> {
    let Some(value) = value else { return Some(Vec::new()) };
    let elements = value.as_array()?;
    let mut names = Vec::with_capacity(elements.len());
    for element in elements {
        let name = element.as_str()?;
        if !names.contains(&name) {
            names.push(name);
        }
    }
    Some(names)
}

fn read_request(element: &Value) -> Result<Request<'_>, &'static str> {
    let (mut id, mut method, mut url, mut group, mut names, mut headers, mut body) = Default::default();
    let mut unknown = false;
    for (name, value) in element.as_object().ok_or("F10 NotRequestObject")? {
        let given = Some(value).filter(|value| !value.is_null());
        match name.as_str() {
            "id" => id = value.as_str(),
            "method" => method = value.as_str(),
            "url" => url = value.as_str(),
            "atomicityGroup" => group = given,
            "dependsOn" => names = given,
            "headers" => headers = given,
            "body" => body = given,
            "if" => return Err("F11 IfMember"),
            _ => unknown |= !name.contains('@'),
        }
    }
    if unknown {
        return Err("F12 UnknownRequestMember");
    }
    let id = id.filter(|id| is_request_id(id)).ok_or("F13 BadId")?;
    let method = method.ok_or("F14 BadMethod")?;
    let method = METHODS.into_iter().find(|known| known.eq_ignore_ascii_case(method)).ok_or("F14 BadMethod")?;
    let url = url.ok_or("F15 BadUrl")?;
    let group = match group {
        None => None,
        Some(value) => Some(value.as_str().filter(|group| is_request_id(group)).ok_or("F16 BadGroup")?),
    };
    let names = read_names(names).ok_or("F17 BadDependsOn")?;
    let headers = read_headers(headers)?;
    if body.is_some() && matches!(method, "get" | "delete") {
        return Err("F20 BodyNotAllowed");
    }
    if body.is_some_and(|body| !is_body_of(&headers, body)) {
        return Err("F21 BadBody");
    }
    if is_nested_batch(url) {
        return Err("F22 NestedBatch");
    }
    let reference = reference_of(url)?;
    Ok(Request { group, body, names, headers, id, method, url, reference })
}

pub fn read_batch(document: &Value) -> Checked<Vec<Request<'_>>> {
    let members = document.as_object().ok_or_else(|| whole("F03 NotObject", "batch"))?;
    let Some(Value::Array(elements)) = members.get("requests") else {
        return Err(whole("F04 NoRequests", "batch"));
    };
    if members.keys().any(|name| name != "requests" && !name.contains('@')) {
        return Err(whole("F05 UnknownMember", "batch"));
    }
    if elements.len() > MAX_REQUESTS {
        return Err(whole("F06 TooMany", "batch"));
    }
    let mut requests = Vec::with_capacity(elements.len());
    for (i, element) in elements.iter().enumerate() {
        requests.push(read_request(element).map_err(|rule| at(rule, "requests", i))?);
    }
    Ok(requests)
}

pub fn write_canonical(requests: &[Request], out: &mut impl Write) -> Checked<()> {
    match requests.iter().position(|request| request.body.is_some_and(|body| !is_whole(body))) {
        Some(i) => Err(at("F50 NotWhole", "requests", i)),
        None => write_list(out, "requests", requests.iter()),
    }
}
