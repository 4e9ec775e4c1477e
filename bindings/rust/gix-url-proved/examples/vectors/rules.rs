//! Orders over a configuration, over texts that Git reads, and over dangers and secrets.

use crate::{named, object, or_null, quoted, reported_shown, Order};
use gix_url_proved::audit::{dangers, redacted, secrets, Danger, Piece};
use gix_url_proved::bstr::{BStr, BString};
use gix_url_proved::rules::{
    check_submodule, credential_reading, git_reading, resolve_submodule, ssh_words, transport_of, Abnormal,
    AddressFamily, Configuration, Credentials, Entry, Error, Flaw, NoTransport, Permission, Policy, ProtocolVersion,
    Remote, Service, SshCommand, SshProgram, SshRefusal, SshRequest, SshVariables, SshVariant, SubmoduleRefusal,
    Unresolved,
};
use std::fmt::Debug;

/// The result of the call of an order; `None` for any other call.
pub fn carry_out(order: &Order, call: &str) -> Option<String> {
    let text = order.bytes("text");
    Some(match call {
        "Reader::new" => match Configuration::from_listing(order.bytes("config")) {
            Ok(read) => reported_entries(read.entries(), true),
            Err(error) => format!("[{}]", reported_error(&error)),
        },
        "config::entries" => {
            reported(Configuration::from_listing(order.bytes("config")), |it| reported_entries(it.entries(), true))
        }
        "config_file::entries" => {
            reported(Configuration::from_file(order.bytes("file")), |it| reported_entries(it.entries(), false))
        }
        "text::transport_of" => reported(transport_of(text), quoted),
        "transport::reading" => reported_place(text),
        "credential::reading" => reported_request(text),
        "secret::secrets" => reported_pieces(text),
        "danger::dangers" => reported_dangers(order),
        _ => {
            return over_configuration(order, call)
                .or_else(|| over_command(order, call))
                .or_else(|| over_submodule(order, call))
                .or_else(|| over_names(order, call))
        }
    })
}

/// A result as JSON, or the error.
fn reported<T>(result: Result<T, Error>, tell: impl FnOnce(T) -> String) -> String {
    result.map_or_else(|error| reported_error(&error), tell)
}

fn reported_error(error: &Error) -> String {
    let error_at = |name: &str, at: Option<usize>, line: Option<usize>| {
        object([
            ("error", Some(quoted(name))),
            ("at", at.map(|at| at.to_string())),
            ("line", line.map(|line| line.to_string())),
        ])
    };
    match *error {
        Error::NoConfiguration { flaw: Flaw::ZeroByte, at, line } => error_at("ZeroByte", Some(at), line),
        Error::NoConfiguration { line: Some(line), .. } => error_at("Refused", None, Some(line)),
        Error::NoConfiguration { flaw, at, line: None } => error_at(&format!("{flaw:?}"), Some(at), None),
        Error::Memory => error_at("Memory", None, None),
        Error::NoValue { at } => error_at("NoValue", Some(at), None),
        Error::NoBoolean { at } => error_at("NoBoolean", Some(at), None),
        Error::NoTransport(why) => reported_why(why),
        Error::Unread(why) => reported_why(why),
        Error::NoCommand(why) => reported_why(why),
        Error::Unresolved(why) => reported_why(why),
    }
}

fn reported_why(why: impl Debug) -> String {
    object([("error", Some(quoted(format!("{why:?}"))))])
}

/// A list of values that are JSON already.
fn list(reported: impl IntoIterator<Item = String>) -> String {
    format!("[{}]", reported.into_iter().collect::<Vec<_>>().join(","))
}

fn reported_entries<'a>(entries: impl Iterator<Item = Entry<'a>>, is_placed: bool) -> String {
    list(entries.map(|it| {
        object([
            ("section", Some(quoted(it.section))),
            ("subsection", it.subsection.map(quoted)),
            ("name", Some(quoted(it.name))),
            ("value", it.value.map(quoted)),
            ("at", is_placed.then(|| it.at.to_string())),
        ])
    }))
}

/// The configuration of an order, which is a listing.
fn configuration(order: &Order) -> Configuration {
    Configuration::from_listing(order.bytes("config")).expect("an order has a listing")
}

/// The indices of entries in a listing, whose positions increase.
fn indices(configuration: &Configuration, entries: &[Entry<'_>]) -> String {
    let positions: Vec<usize> = configuration.entries().map(|it| it.at).collect();
    let index = |entry: &Entry<'_>| positions.binary_search(&entry.at).expect("it is an entry of the configuration");
    list(entries.iter().map(|entry| index(entry).to_string()))
}

/// Calls over the entries of a configuration.
fn over_configuration(order: &Order, call: &str) -> Option<String> {
    let (entries, text) = (|| configuration(order), order.bytes("text"));
    let name = || order.text("name").unwrap_or_default();
    Some(match call {
        "Rewrites::from_entries" => reported(entries().rewrite_fetch(""), |_| or_null(None)),
        "Rewrites::rewrite_fetch" | "Rewritten::to_bstring" => {
            reported(entries().rewrite_fetch(text), |it| quoted(it.text))
        }
        "Rewrites::rewrite_push" => {
            reported(entries().rewrite_push(text, order.bytes("has_push_url") == b"true"), |it| quoted(it.text))
        }
        "Rewritten::is_rewritten" => reported(entries().rewrite_fetch(text), |it| it.is_rewritten().to_string()),
        "Remote::of" => reported(entries().remote(order.bytes("name")), reported_remote),
        "Protocols::permission" | "Permission::is_allowed" => reported_permission(order, call),
        "settings::settings_for" => reported_settings(&entries(), &name(), text),
        // A text without a normal form has no place.
        "settings::settings_without_place" => reported_settings(&entries(), &name(), b""),
        "entries::best_entry" => reported_best(&entries(), &name(), text),
        "UrlPattern::matches" => reported_best(&of_pattern(order.bytes("pattern")), "k", text),
        "credentials::credentials_for" => {
            let entries = entries();
            reported(entries.credentials(text), |found| or_null(found.map(|it| reported_credentials(&entries, &it))))
        }
        "SshProgram::of" => reported_program(order),
        _ => return None,
    })
}

fn reported_remote(remote: Remote) -> String {
    let texts = |texts: Vec<BString>| list(texts.iter().map(quoted));
    object([
        ("urls", Some(texts(remote.urls))),
        ("push_urls", Some(texts(remote.push_urls))),
        ("vcs", remote.vcs.map(quoted)),
        ("proxy", remote.proxy.map(quoted)),
        ("uploadpack", remote.uploadpack.map(quoted)),
        ("receivepack", remote.receivepack.map(quoted)),
    ])
}

/// A variable of an order, if it is set.
fn variable<'a>(order: &'a Order, name: &str) -> Option<&'a [u8]> {
    order.0.get(name).map(Vec::as_slice)
}

fn reported_permission(order: &Order, call: &str) -> String {
    let policy = Policy { allow_list: variable(order, "allow_list"), from_user: variable(order, "from_user") };
    let name = order.text("name").unwrap_or_default();
    reported(configuration(order).permission(&name, &policy), |permission| match (call, permission) {
        ("Permission::is_allowed", it) => it.is_allowed().to_string(),
        (_, it) if order.text("style").is_some() => object([("shown", Some(quoted(format!("{it:?}"))))]),
        (_, Permission::Allowed(_)) => quoted("Allowed"),
        (_, Permission::Refused(_)) => quoted("Refused"),
        (_, Permission::UnknownAllowance { .. }) => quoted("UnknownAllowance"),
        (_, Permission::UnknownFromUser) => quoted("UnknownFromUser"),
    })
}

fn reported_settings(configuration: &Configuration, name: &str, text: &[u8]) -> String {
    reported(configuration.settings(name, text), |it| indices(configuration, &it.entries))
}

/// The value of the best entry for a URL. For an entry of `of_pattern`, whether it applies.
fn reported_best(configuration: &Configuration, name: &str, text: &[u8]) -> String {
    reported(configuration.settings(name, text), |found| match (found.abnormal, found.entries.first()) {
        (Some(why), _) => reported_why(why),
        (None, entry) if configuration.entries().all(|it| it.line == Some(1)) => entry.is_some().to_string(),
        (None, entry) => or_null(entry.and_then(|it| it.value).map(quoted)),
    })
}

/// A configuration with one entry of `http.<pattern>.k`, on line 1 of a file.
fn of_pattern(pattern: &[u8]) -> Configuration {
    let (section, name) = ("http".into(), "k".into());
    let entry =
        Entry { section, subsection: Some(pattern.into()), name, value: Some("v".into()), at: 0, line: Some(1) };
    [entry].into_iter().collect()
}

fn reported_credentials(configuration: &Configuration, found: &Credentials<'_>) -> String {
    object([
        ("helpers", Some(indices(configuration, &found.helpers))),
        ("user", found.user.as_ref().map(quoted)),
        ("use_http_path", Some(found.use_http_path.to_string())),
    ])
}

fn reported_program(order: &Order) -> String {
    let variables = SshVariables {
        git_ssh_command: variable(order, "git_ssh_command"),
        git_ssh: variable(order, "git_ssh"),
        git_ssh_variant: variable(order, "git_ssh_variant"),
    };
    reported(configuration(order).ssh_program(&variables), |it: SshProgram| {
        let variant = it.variant.map_or("Asked".to_owned(), |it| format!("{it:?}"));
        object([
            ("text", Some(quoted(it.text))),
            ("is_command_line", Some(it.is_command_line.to_string())),
            ("variant", Some(quoted(variant))),
        ])
    })
}

fn reported_place(text: &[u8]) -> String {
    reported(git_reading(text), |it| {
        object([
            ("protocol", Some(quoted(format!("{:?}", it.protocol)))),
            ("user", it.user.map(quoted)),
            ("host", it.host.map(quoted)),
            ("port", it.port.map(|port| port.to_string())),
            ("path", Some(quoted(it.path))),
        ])
    })
}

fn reported_request(text: &[u8]) -> String {
    reported(credential_reading(text), |read| {
        or_null(read.map(|it| {
            object([
                ("protocol", Some(quoted(it.protocol))),
                ("user", it.user.map(quoted)),
                ("password", it.password.map(quoted)),
                ("host", Some(quoted(it.host))),
                ("path", it.path.map(quoted)),
            ])
        }))
    })
}

/// The pieces of a text. Neighbours of one kind are joined.
fn reported_pieces(text: &[u8]) -> String {
    let mut joined: Vec<(&str, Vec<u8>)> = Vec::new();
    let mut shown = Vec::new();
    for piece in secrets(text) {
        let (kind, bytes): (&str, &BStr) = match piece {
            Piece::Shown(bytes) => ("shown", bytes),
            Piece::Hidden(bytes) => ("hidden", bytes),
        };
        shown.extend_from_slice(if kind == "shown" { bytes } else { b"redacted" });
        match joined.last_mut() {
            Some((last, before)) if *last == kind => before.extend_from_slice(bytes),
            _ => joined.push((kind, bytes.to_vec())),
        }
    }
    assert_eq!(redacted(text), shown);
    list(joined.into_iter().map(|(kind, bytes)| object([(kind, Some(quoted(bytes)))])))
}

fn reported_dangers(order: &Order) -> String {
    let text = order.bytes(if order.0.contains_key("text") { "text" } else { "url" });
    let url = order.url("url").expect("the location of an order");
    reported(dangers(text, &url), |found| list(found.into_iter().map(|danger| quoted(danger.name()))))
}

/// The service of an order.
fn service(order: &Order) -> Option<Service> {
    let all = [Service::UploadPack, Service::ReceivePack, Service::UploadArchive];
    all.into_iter().find(|it| it.as_str() == order.text("service").unwrap_or_default())
}

/// The request for Secure Shell in an order.
fn request(order: &Order) -> Option<SshRequest<'_>> {
    Some(SshRequest {
        service: service(order)?,
        program: variable(order, "program"),
        variant: match order.bytes("variant") {
            b"ssh" => SshVariant::Ssh,
            b"simple" => SshVariant::Simple,
            b"plink" => SshVariant::Plink,
            b"putty" => SshVariant::Putty,
            b"tortoiseplink" => SshVariant::TortoisePlink,
            _ => return None,
        },
        version: match order.bytes("version") {
            b"0" => ProtocolVersion::V0,
            b"1" => ProtocolVersion::V1,
            b"2" => ProtocolVersion::V2,
            _ => return None,
        },
        family: match order.bytes("family") {
            b"4" => AddressFamily::V4,
            b"6" => AddressFamily::V6,
            _ => AddressFamily::Any,
        },
    })
}

/// Calls over a command of Secure Shell.
fn over_command(order: &Order, call: &str) -> Option<String> {
    let tell: fn(SshCommand) -> String = match call {
        "Service::as_str" => return service(order).map(|it| quoted(it.as_str())),
        "ssh::ssh_words" | "ssh::ssh_command" | "ssh::ssh_command_for" | "SshCommand::to_words" => {
            |it| list(it.words.iter().map(quoted))
        }
        "SshCommand::git_protocol" => |it| or_null(it.git_protocol().map(quoted)),
        _ => return None,
    };
    Some(reported(ssh_words(&order.url("url")?, &request(order)?), tell))
}

/// Calls over the URL or the entries of a submodule.
fn over_submodule(order: &Order, call: &str) -> Option<String> {
    let resolved = || resolve_submodule(order.bytes("parent"), order.bytes("url"));
    Some(match call {
        "resolve::resolve" | "Resolved::to_bstring" => resolved().url.map_or_else(reported_why, quoted),
        "resolve::climbs" => resolved().climbs.to_string(),
        "resolve::is_relative" => resolved().is_relative.to_string(),
        "refusal::check" => {
            let checks = configuration(order).entries().map(|it| check_submodule(&it)).collect::<Vec<_>>();
            let refusals = checks.into_iter().flat_map(|it| [it.name, it.value]).flatten();
            list(refusals.map(|it| quoted(it.words())))
        }
        "submodules::submodules" => reported_submodules(order),
        _ => return None,
    })
}

/// The submodules that have a path and a URL, by their names.
fn reported_submodules(order: &Order) -> String {
    let configuration = configuration(order);
    reported(configuration.submodules(), |found| {
        let members = found.iter().filter(|it| it.path.is_some()).filter_map(|it| {
            let url = quoted(it.url?.value?);
            let update = it.update.and_then(|it| it.value).map(quoted);
            Some(format!("{}:{}", quoted(&it.name), object([("url", Some(url)), ("update", update)])))
        });
        format!("{{{}}}", members.collect::<Vec<_>>().join(","))
    })
}

/// Calls over the name of a danger or of a reason.
fn over_names(order: &Order, call: &str) -> Option<String> {
    let (name, style) = (order.text("error").unwrap_or_default(), order.text("style").unwrap_or_default());
    let at = order.text("at").and_then(|at| at.parse().ok());
    let danger = || named(Danger::ALL, &order.text("danger").unwrap_or_default());
    Some(match call {
        "Danger::name" => quoted(danger()?.name()),
        "Danger::words" => quoted(danger()?.words()),
        "Refused::as_str" => {
            use SubmoduleRefusal::{Name, Path, Update, Url};
            quoted(named([Name, Url, Path, Update], &name)?.words())
        }
        "EntryError:fmt" => {
            let flaw = named([Flaw::NoKey, Flaw::NoEnd], &name)?;
            reported_shown(&Error::NoConfiguration { flaw, at: at?, line: None }, &style)
        }
        "SettingsError:fmt" | "CredentialsError:fmt" | "RemoteError:fmt" | "SshProgramError:fmt" => match name.as_str()
        {
            "Memory" => reported_shown(&Error::Memory, &style),
            "NoValue" => reported_shown(&Error::NoValue { at: at? }, &style),
            "NoBoolean" => reported_shown(&Error::NoBoolean { at: at? }, &style),
            _ => return None,
        },
        _ => return over_reasons(call, &name, &style),
    })
}

/// Calls over the name of a reason.
fn over_reasons(call: &str, name: &str, style: &str) -> Option<String> {
    Some(match call {
        "NoTransport:fmt" => {
            use NoTransport::{ByteZero, OptionLike, Rsync, UnknownScheme};
            reported_shown(&named([ByteZero, OptionLike, Rsync, UnknownScheme], name)?, style)
        }
        "ResolveError:fmt" => reported_shown(&named([Unresolved::EmptyParent, Unresolved::NothingLeft], name)?, style),
        "NormalError:fmt" => {
            use Abnormal::{AboveRoot, BadHost, BadPort, BrokenEscape, NoHost, NoUrl};
            reported_shown(&named([NoUrl, BrokenEscape, NoHost, BadHost, BadPort, AboveRoot], name)?, style)
        }
        "SshRefusal:fmt" | "SshError:fmt" if name != "Memory" => reported_shown(&ssh_refusal(name)?, style),
        "SshError:fmt" => reported_shown(&Error::Memory, style),
        _ => return None,
    })
}

/// The reason with this name why there is no command.
fn ssh_refusal(name: &str) -> Option<SshRefusal> {
    use SshRefusal::{
        AtSignInHost, ByteZero, ByteZeroInProgram, EmptyProgram, EmptyUser, FamilyOfSimple, NoHost, NoPath,
        NotSecureShell, OptionLikeHost, OptionLikePath, OptionLikeProgram, OptionLikeUser, Password, PortOfSimple,
        UrlLikeDestination,
    };
    let of_location =
        [NotSecureShell, Password, EmptyUser, ByteZero, OptionLikeUser, NoHost, OptionLikeHost, AtSignInHost];
    let of_more = [UrlLikeDestination, NoPath, OptionLikePath, EmptyProgram, ByteZeroInProgram, OptionLikeProgram];
    named(of_location.into_iter().chain(of_more).chain([FamilyOfSimple, PortOfSimple]), name)
}
