//! Executes the orders on the standard input, one a line, by the calls of the crate, and prints the result of each call
//! as a line of JSON, as the program `answers` does. `tests/bindings/binding_rows.py` writes and describes orders.

mod rules;

use gix_url_proved::bstr::BString;
use gix_url_proved::expand_path::{self, ForUser};
use gix_url_proved::ipv6::is_ipv6;
use gix_url_proved::parse::{parse, Error, UrlFault, UrlKind, WriteFault};
use gix_url_proved::testing::TestUrlExtension;
use gix_url_proved::{ArgumentSafety, PathComponents, Scheme, Url};
use std::collections::hash_map::DefaultHasher;
use std::collections::BTreeMap;
use std::fmt::{Debug, Display, Write};
use std::hash::{Hash, Hasher};
use std::io::{self, Read};
use std::os::unix::ffi::OsStrExt;

/// The members of an order, by their names.
struct Order(BTreeMap<String, Vec<u8>>);

/// The bytes as a text. Orders have only UTF-8 for it.
fn utf8(bytes: &[u8]) -> String {
    String::from_utf8(bytes.to_vec()).expect("the text of an order is UTF-8")
}

/// Decodes the escapes of a value: `\x` with two digits is a byte.
fn unescaped(mut value: &[u8]) -> Vec<u8> {
    let mut bytes = Vec::new();
    while let [first, rest @ ..] = value {
        if *first == b'\\' {
            bytes.push(u8::from_str_radix(&utf8(&rest[1..3]), 16).expect("two digits"));
            value = &rest[3..];
        } else {
            bytes.push(*first);
            value = rest;
        }
    }
    bytes
}

impl Order {
    /// Parses the order on a line.
    fn of(line: &[u8]) -> Order {
        let member = |member: &[u8]| {
            let at = member.iter().position(|byte| *byte == b'=').expect("a member has a value");
            (utf8(&member[..at]), unescaped(&member[at + 1..]))
        };
        Order(line.split(|byte| *byte == b'\t').map(member).collect())
    }

    /// The bytes of a member, or none if it is missing.
    fn bytes(&self, name: &str) -> &[u8] {
        self.0.get(name).map_or(&[], Vec::as_slice)
    }

    /// The text of a member, if it is there.
    fn text(&self, name: &str) -> Option<String> {
        self.0.get(name).map(|value| utf8(value))
    }

    /// The location of a member: its text, parsed, or the parts as they are.
    fn url(&self, name: &str) -> Option<Url> {
        self.0.get(name).map_or_else(|| self.parts(name), |text| parse(text).ok())
    }

    /// The location of these parts, as they are.
    fn parts(&self, name: &str) -> Option<Url> {
        let part = |part: &str| format!("{name}.{part}");
        let mut url = Url::default();
        url.scheme = scheme(&self.text(&part("scheme"))?);
        url.user = self.text(&part("user"));
        url.password = self.text(&part("password"));
        url.host = self.text(&part("host"));
        url.port = self.text(&part("port")).map(|port| port.parse().expect("a port"));
        url.serialize_alternative_form = self.bytes(&part("alternative")) == b"true";
        url.path = self.bytes(&part("path")).into();
        Some(url)
    }

    /// The error for a text, or the error with these names, which keeps these bytes.
    fn error(&self) -> Option<Error> {
        let names = match self.text("error.error") {
            Some(names) => names,
            None => return parse(self.bytes("text")).err(),
        };
        let kept = BString::from(self.bytes("error.kept"));
        Some(match names.split(' ').collect::<Vec<&str>>().as_slice() {
            ["Memory"] => Error::Memory,
            ["EmptyLocal"] => Error::EmptyLocal,
            ["MissingPath", name] => Error::MissingPath { kind: kind(name)?, input: kept },
            ["NotUtf8", name] => Error::NotUtf8 { kind: kind(name)?, input: kept },
            ["TooLong"] => Error::TooLong { shown: kept, total: 2016 },
            ["BadUrl", fault, name] => Error::BadUrl { kind: kind(name)?, fault: url_fault(fault)?, input: kept },
            ["HelperName"] => Error::HelperName { name: kept },
            ["Unwritable", fault] => Error::Unwritable(write_fault(fault)?),
            ["NoHome"] => Error::NoHome(user(self, "error.user").unwrap_or(ForUser::Name(BString::default()))),
            ["Unresolved"] => Error::Unresolved,
            _ => return None,
        })
    }
}

/// The scheme of a text, in which a name follows a space.
fn scheme(reported: &str) -> Scheme {
    match reported.split_once(' ') {
        Some(("Helper", name)) => Scheme::Helper(name.to_owned()),
        Some((_, name)) => Scheme::HelperUrl(name.to_owned()),
        None => Scheme::from(reported.to_lowercase().as_str()),
    }
}

/// The value with this name.
fn named<T: Debug>(values: impl IntoIterator<Item = T>, name: &str) -> Option<T> {
    values.into_iter().find(|value| format!("{value:?}") == name)
}

fn kind(name: &str) -> Option<UrlKind> {
    named([UrlKind::Url, UrlKind::Scp, UrlKind::Local], name)
}

fn url_fault(name: &str) -> Option<UrlFault> {
    named([UrlFault::NoScheme, UrlFault::BadPort, UrlFault::BadCharacter, UrlFault::HostRequired], name)
}

fn write_fault(name: &str) -> Option<WriteFault> {
    use WriteFault::{HelperName, HelperParts, RelativeSsh, UserWithoutHost};
    named([HelperName, HelperParts, RelativeSsh, UserWithoutHost], name)
}

/// Bytes as a JSON string. A byte that isn't ASCII is written as U+EF00 plus the byte.
fn quoted(bytes: impl AsRef<[u8]>) -> String {
    let character = |byte: &u8| match byte {
        0..=31 | b'"' | b'\\' | 127 => format!("\\u{byte:04x}"),
        128.. => format!("\\uef{byte:02x}"),
        _ => char::from(*byte).to_string(),
    };
    format!("\"{}\"", bytes.as_ref().iter().map(character).collect::<String>())
}

/// The JSON of a value that may be missing.
fn or_null(reported: Option<String>) -> String {
    reported.unwrap_or("null".to_owned())
}

/// An object with the members that have a value.
fn object<const COUNT: usize>(members: [(&str, Option<String>); COUNT]) -> String {
    let member = |(name, value): (&str, Option<String>)| Some(format!("\"{name}\":{}", value?));
    format!("{{{}}}", members.into_iter().filter_map(member).collect::<Vec<_>>().join(","))
}

fn reported_scheme(scheme: &Scheme) -> String {
    quoted(match scheme {
        Scheme::Helper(name) => format!("Helper {name}"),
        Scheme::HelperUrl(name) => format!("HelperUrl {name}"),
        named => format!("{named:?}"),
    })
}

fn reported_url(url: &Url) -> String {
    object([
        ("scheme", Some(reported_scheme(&url.scheme))),
        ("user", url.user.as_ref().map(quoted)),
        ("password", url.password.as_ref().map(quoted)),
        ("host", url.host.as_ref().map(quoted)),
        ("port", url.port.map(|port| port.to_string())),
        ("alternative", url.serialize_alternative_form.then(|| "true".to_owned())),
        ("path", Some(quoted(&url.path))),
        ("spelling", Some(url.original_path()).filter(|spelling| *spelling != url.path).map(quoted)),
    ])
}

fn reported_error(error: &Error) -> String {
    let (name, kept, total) = match error {
        Error::Memory | Error::EmptyLocal => (format!("{error:?}"), None, None),
        Error::MissingPath { kind, input } => (format!("MissingPath {kind:?}"), Some(input), None),
        Error::NotUtf8 { kind, input } => (format!("NotUtf8 {kind:?}"), Some(input), None),
        Error::TooLong { shown, total } => ("TooLong".to_owned(), Some(shown), Some(total)),
        Error::BadUrl { kind, fault, input } => (format!("BadUrl {fault:?} {kind:?}"), Some(input), None),
        Error::HelperName { name } => ("HelperName".to_owned(), Some(name), None),
        Error::Unwritable(fault) => (format!("Unwritable {fault:?}"), None, None),
        Error::NoHome(user) => {
            return object([("error", Some(quoted("NoHome"))), ("user", Some(reported_user(user)))]);
        }
        Error::Unresolved => ("Unresolved".to_owned(), None, None),
    };
    let refusal = error.refusal();
    object([
        ("error", Some(quoted(name))),
        ("kept", kept.map(quoted)),
        ("total", total.map(usize::to_string)),
        ("at", refusal.map(|it| it.at.to_string())),
        ("len", refusal.map(|it| it.len.to_string())),
        ("reason", refusal.map(|it| quoted(it.reason.name()))),
    ])
}

/// A user: the sign of a home folder, followed by the name.
fn reported_user(user: &ForUser) -> String {
    let name = Option::<BString>::from(user.clone()).unwrap_or_default();
    quoted([b"~", name.as_slice()].concat())
}

fn reported_answer(answer: Result<Url, Error>) -> String {
    answer.map_or_else(|error| reported_error(&error), |url| reported_url(&url))
}

fn reported_judged(judged: ArgumentSafety<'_>) -> String {
    match judged {
        ArgumentSafety::Absent => or_null(None),
        ArgumentSafety::Usable(text) => object([("usable", Some(quoted(text)))]),
        ArgumentSafety::Dangerous(text) => object([("dangerous", Some(quoted(text)))]),
    }
}

fn reported_components(parts: &PathComponents<'_>) -> String {
    let query = parts.query.as_ref().map(|pairs| {
        let pairs: Vec<String> = pairs
            .iter()
            .map(|(name, value)| format!("[{},{}]", quoted(name.as_ref()), quoted(value.as_ref())))
            .collect();
        format!("[{}]", pairs.join(","))
    });
    object([("path", Some(quoted(parts.path))), ("query", query), ("fragment", parts.fragment.as_ref().map(quoted))])
}

/// A writer that accepts one byte a call.
#[derive(Default)]
struct Sips(Vec<u8>);

impl io::Write for Sips {
    fn write(&mut self, bytes: &[u8]) -> io::Result<usize> {
        self.0.extend(bytes.first());
        Ok(bytes.len().min(1))
    }

    fn flush(&mut self) -> io::Result<()> {
        Ok(())
    }
}

/// The text that is written for a location, and the error if there is one.
fn write(url: &Url) -> (BString, Option<Error>) {
    let mut written = Sips::default();
    let error = url.write_to(&mut written).err();
    (
        written.0.into(),
        error.map(|error| *error.into_inner().expect("no text").downcast().expect("an error of the crate")),
    )
}

fn reported_written(url: &Url) -> String {
    let (written, error) = write(url);
    object([("written", Some(quoted(written))), ("fault", error.as_ref().map(reported_error))])
}

/// The text of a location, which is the same from each call that writes it.
fn reported_text(url: &Url) -> String {
    match url.text() {
        Ok(text) => {
            assert_eq!((url.to_bstring(), write(url)), (text.clone(), (text.clone(), None)));
            quoted(text)
        }
        Err(error) => {
            assert_eq!(write(url), (BString::default(), Some(error.clone())));
            reported_error(&error)
        }
    }
}

/// The text that a value is formatted as in a style, and whether that failed.
fn reported_shown(value: &(impl Display + Debug), style: &str) -> String {
    let mut text = String::new();
    let outcome = match style {
        "{:#}" => write!(text, "{value:#}"),
        "{:>40}" => write!(text, "{value:>40}"),
        "{:.3}" => write!(text, "{value:.3}"),
        "{:+}" => write!(text, "{value:+}"),
        "{:*^#60.7}" => write!(text, "{value:*^#60.7}"),
        "{:?}" => write!(text, "{value:?}"),
        "{:#?}" => write!(text, "{value:#?}"),
        _ => write!(text, "{value}"),
    };
    object([("shown", Some(quoted(text))), ("failed", outcome.is_err().then(|| "true".to_owned()))])
}

/// The order and the partial order of two values, whether they are equal, and whether they have one hash.
fn reported_order<T: Ord + Hash>(one: &T, other: &T) -> String {
    let hash = |value: &T| {
        let mut hasher = DefaultHasher::new();
        value.hash(&mut hasher);
        hasher.finish()
    };
    let partly = or_null(one.partial_cmp(other).map(|order| quoted(format!("{order:?}"))));
    let wholly = quoted(format!("{:?}", one.cmp(other)));
    format!("[[{wholly},{partly}],[{},{}]]", one == other, hash(one) == hash(other))
}

/// Calls that change or consume a location: the result of the call, and the location after it.
fn change(order: &Order, call: &str, mut url: Url) -> Option<String> {
    let old = match call {
        "Url::set_user" => url.set_user(order.text("user")),
        "Url::set_password" => url.set_password(order.text("password")),
        "Url::with_request_alternate_form" => {
            return Some(reported_url(&url.with_request_alternate_form(order.bytes("alternative") == b"true")))
        }
        _ => return None,
    };
    Some(format!("[{},{}]", or_null(old.map(quoted)), reported_url(&url)))
}

/// Calls that inspect a location, its path, or a second location.
fn look(order: &Order, call: &str, url: &Url) -> Option<String> {
    Some(match call {
        "Url::clone" => reported_url(&url.clone()),
        "Url::to_bstring" => reported_text(url),
        "Url::write_to" => reported_written(url),
        "Url:fmt" => reported_shown(url, &order.text("style").unwrap_or_default()),
        "Url::is_settled" => url.is_settled().to_string(),
        "Url::text_len" => {
            url.text_len().map_or_else(|fault| reported_error(&Error::Unwritable(fault)), |length| length.to_string())
        }
        "Url::reread" => reported_answer(url.reread()),
        "Url::agrees_with_git" => url.agrees_with_git().to_string(),
        "Url::is_unambiguous" => url.is_unambiguous().to_string(),
        "Url::unmet_condition" => or_null(url.unmet_condition().map(|unmet| quoted(format!("{unmet:?}")))),
        "Url::path_query_fragment" => reported_components(&url.path_query_fragment()),
        "PathComponents::clone" => reported_components(&url.path_query_fragment().clone()),
        "PathComponents:Eq" => (url.path_query_fragment() == order.url("other")?.path_query_fragment()).to_string(),
        "Url:Ord" => reported_order(url, &order.url("other")?),
        _ => return look_at_part(call, url),
    })
}

/// Calls that inspect a part of a location.
fn look_at_part(call: &str, url: &Url) -> Option<String> {
    Some(match call {
        "Url::user" => or_null(url.user().map(quoted)),
        "Url::password" => or_null(url.password().map(quoted)),
        "Url::host" => or_null(url.host().map(quoted)),
        "Url::port_or_default" => or_null(url.port_or_default().map(|port| port.to_string())),
        "Url::path_is_root" => url.path_is_root().to_string(),
        "Url::original_path" => quoted(url.original_path()),
        "Url::user_as_argument" => reported_judged(url.user_as_argument()),
        "Url::host_as_argument" => reported_judged(url.host_as_argument()),
        "Url::user_argument_safe" => or_null(url.user_argument_safe().map(quoted)),
        "Url::host_argument_safe" => or_null(url.host_argument_safe().map(quoted)),
        "Url::path_argument_safe" => or_null(url.path_argument_safe().map(quoted)),
        _ => return None,
    })
}

/// Calls over a scheme.
fn over_scheme(order: &Order, call: &str, scheme: &Scheme) -> Option<String> {
    Some(match call {
        "Scheme::clone" => reported_scheme(&scheme.clone()),
        "Scheme::as_str" => quoted(scheme.as_str()),
        "Scheme::default_port" => or_null(scheme.default_port().map(|port| port.to_string())),
        "Scheme:fmt" => reported_shown(scheme, &order.text("style").unwrap_or_default()),
        "Scheme:Ord" => reported_order(scheme, &self::scheme(&order.text("other")?)),
        _ => return None,
    })
}

/// Calls over a text, parts, an error or a fault, or without input.
fn over_others(order: &Order, call: &str) -> Option<String> {
    let (text, style) = (order.bytes("text"), order.text("style").unwrap_or_default());
    let name = |member| order.text(member).unwrap_or_default();
    Some(match call {
        "parse::parse" => reported_answer(parse(text)),
        "Url::from_bytes" => reported_answer(Url::from_bytes(text.into())),
        "Url::from_text" => reported_answer(Url::try_from(utf8(text).as_str())),
        "Scheme::from_text" => reported_scheme(&Scheme::from(utf8(text).as_str())),
        "Url::from_parts" => reported_answer(from_parts(order.parts("record")?)),
        "Url::from_parts_unchecked" => reported_url(&unchecked(order.parts("record")?)),
        "ipv6::is_ipv6" => is_ipv6(&utf8(text)).to_string(),
        "Url::default_in" => reported_url(&Url::default()),
        "Error:fmt" => reported_shown(&order.error()?, &style),
        "UrlKind:fmt" => reported_shown(&kind(&name("kind"))?, &style),
        "UrlFault:fmt" => reported_shown(&url_fault(&name("fault"))?, &style),
        "WriteFault:fmt" => reported_shown(&write_fault(&name("fault"))?, &style),
        _ => return None,
    })
}

fn from_parts(it: Url) -> Result<Url, Error> {
    Url::from_parts(it.scheme, it.user, it.password, it.host, it.port, it.path, it.serialize_alternative_form)
}

fn unchecked(it: Url) -> Url {
    Url::from_parts_unchecked(it.scheme, it.user, it.password, it.host, it.port, it.path, it.serialize_alternative_form)
}

/// The user of a member: `~`, followed by the name.
fn user(order: &Order, name: &str) -> Option<ForUser> {
    let name = order.0.get(name)?.strip_prefix(b"~").expect("a user begins with the sign of a home folder");
    Some(if name.is_empty() { ForUser::Current } else { ForUser::Name(name.into()) })
}

/// Calls over a path in a home folder, or over the user of one.
fn over_homes(order: &Order, call: &str) -> Option<String> {
    let (text, path) = (order.bytes("text"), order.bytes("path"));
    Some(match call {
        "expand_path::parse" => {
            let (user, below) = expand_path::parse(text.into()).expect("each path is parted");
            format!("[{},{}]", or_null(user.as_ref().map(reported_user)), quoted(below))
        }
        "expand_path::for_shell" => quoted(expand_path::for_shell(path.into())),
        "expand_path::with" => reported_with(order, path),
        "ForUser::clone" => reported_user(&user(order, "user")?.clone()),
        "ForUser:into" => or_null(Option::<BString>::from(user(order, "user")?).map(quoted)),
        "ForUser:Ord" => reported_order(&user(order, "user")?, &user(order, "other")?),
        _ => return None,
    })
}

/// The path in the home folder that a closure returns, and how often the closure is called.
fn reported_with(order: &Order, path: &[u8]) -> String {
    let mut asked = 0;
    let answer = expand_path::with(user(order, "user").as_ref(), path.into(), |_| {
        asked += 1;
        order.text("home").map(Into::into)
    });
    let reported = answer.map_or_else(|error| reported_error(&error), |path| quoted(path.as_os_str().as_bytes()));
    format!("[{reported},{asked}]")
}

/// Makes the call of an order, by the type of its input.
fn carry_out(order: &Order) -> Option<String> {
    let call = order.text("call")?;
    if let Some(reported) = rules::carry_out(order, &call) {
        return Some(reported);
    }
    if let Some(url) = order.url("url") {
        return look(order, &call, &url).or_else(|| change(order, &call, url));
    }
    match order.text("scheme") {
        Some(reported) => over_scheme(order, &call, &scheme(&reported)),
        None => over_homes(order, &call).or_else(|| over_others(order, &call)),
    }
}

fn main() {
    let mut all = Vec::new();
    std::io::stdin().read_to_end(&mut all).expect("the standard input can be read");
    for line in all.split_inclusive(|byte| *byte == b'\n') {
        let reported = carry_out(&Order::of(line.strip_suffix(b"\n").unwrap_or(line)));
        println!("{}", reported.unwrap_or(r#"{"halt":"not carried out"}"#.to_owned()));
    }
}
