//! Results of texts. Cases stand as lines of a list, each a text, ` => ` and its result.

use crate::fixtures::{is_missing, is_same};
use iiif_canonical::{Limits, canonical, image_uri, push_escaped, resolve, text, uri};
use iiif_pixel::{Dim, Kind};
use iiif_request::{Request, Target, Words, parse, split};
use std::alloc::Global;

/// An image that words are read for, and how large its results may be.
#[derive(Clone, Copy)]
pub struct Image {
    pub dim: Dim,
    pub kind: Kind,
    pub limits: Limits,
}

/// The kind of the texts of a list, and of their results.
#[derive(Clone, Copy)]
pub enum Subject {
    /// Targets, cut at the prefix `/iiif`.
    Targets,
    /// Targets of images, of which the words are read as a request.
    Requests,
    /// Words of an image: the text of that request as it is.
    Texts,
    /// Words of an image: what they resolve to for an image.
    Resolved(Image),
    /// Words of an image: the text of their canonical form for an image, or why they are refused.
    Canonical(Image),
    /// Words of an image: the link to that form.
    Links(Image),
    /// Identifiers: the link to their image.
    Images,
    /// Identifiers, escaped.
    Escaped,
}

/// The server that links lead to.
const BASE: &str = "http://localhost/iiif";

/// Splits a target.
fn asked(alloc: Global, target: &str) -> Option<String> {
    let asked = split(alloc, b"/iiif", target.as_bytes());
    format!(in alloc; "{asked:?}").ok()
}

/// Resolves a request for an image.
fn resolved(alloc: Global, image: &Image, request: &Request) -> Option<String> {
    let resolved = resolve(request, image.dim, image.kind, &image.limits);
    format!(in alloc; "{resolved:?}").ok()
}

/// The text of a request's canonical form for an image, or why it is refused.
fn canonical_text(alloc: Global, image: &Image, request: &Request) -> Option<String> {
    match resolve(request, image.dim, image.kind, &image.limits) {
        Ok(resolved) => {
            let form = canonical(&resolved, image.dim, image.kind, &image.limits);
            text(alloc, &form).ok()
        }
        Err(refusal) => format!(in alloc; "{refusal:?}").ok(),
    }
}

/// The link to a request's canonical form for an image; none where it is refused.
pub(crate) fn link(alloc: Global, image: &Image, id: &str, request: &Request) -> Option<String> {
    let Ok(resolved) = resolve(request, image.dim, image.kind, &image.limits) else {
        return None;
    };
    let form = canonical(&resolved, image.dim, image.kind, &image.limits);
    uri(alloc, BASE, id, &form).ok()
}

/// The result of the words for an image of this identifier.
fn said(alloc: Global, subject: Subject, id: &str, words: &Words) -> Option<String> {
    let said = parse(words);
    match (said, subject) {
        (Ok(request), Subject::Texts) => text(alloc, &request).ok(),
        (Ok(request), Subject::Resolved(image)) => resolved(alloc, &image, &request),
        (Ok(request), Subject::Canonical(image)) => canonical_text(alloc, &image, &request),
        (Ok(request), Subject::Links(image)) => link(alloc, &image, id, &request),
        _ => format!(in alloc; "{said:?}").ok(),
    }
}

/// The result of the words of a target.
fn words_of(alloc: Global, subject: Subject, target: &str) -> Option<String> {
    match split(alloc, b"/iiif", target.as_bytes()) {
        Ok(Target::Image(id, words)) => said(alloc, subject, id.as_str(), &words),
        _ => None,
    }
}

/// An identifier, escaped.
fn escaped(alloc: Global, id: &str) -> Option<String> {
    let mut name = String::new(alloc);
    push_escaped(&mut name, id).ok()?;
    Some(name)
}

/// The result of a text; none where it is no text for this, or memory runs out.
fn answer(alloc: Global, subject: Subject, given: &str) -> Option<String> {
    match subject {
        Subject::Targets => asked(alloc, given),
        Subject::Images => image_uri(alloc, BASE, given).ok(),
        Subject::Escaped => escaped(alloc, given),
        _ => words_of(alloc, subject, given),
    }
}

/// Whether a line's text comes to what stands behind it.
fn is_so(alloc: Global, subject: Subject, line: &str) -> bool {
    let Some((given, want)) = line.split_once(" => ") else {
        return false;
    };
    match answer(alloc, subject, given) {
        Some(text) => is_same(&text.as_str(), &want),
        None => is_missing(),
    }
}

/// The first line whose text comes to something else.
fn wrong_line(alloc: Global, subject: Subject, list: &'static str) -> Option<&'static str> {
    for line in list.lines() {
        if !is_so(alloc, subject, line) {
            return Some(line);
        }
    }
    None
}

/// The first such line of some lists.
pub(crate) fn first_wrong(
    alloc: Global,
    lists: &[(Subject, &'static str)],
) -> Option<&'static str> {
    for (subject, list) in lists {
        let wrong = wrong_line(alloc, *subject, list);
        if wrong.is_some() {
            return wrong;
        }
    }
    None
}
