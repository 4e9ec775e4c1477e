"""Executes orders of calls over a configuration, and over texts that Git reads, by the module `gix_url.rules`."""
import itertools

import gix_url
from gix_url import rules
from gix_url.rules import Configuration, Decider, Decision

SERVICES = {f"git-{it}".replace("_", "-").encode(): it for it in rules.Service}
VARIANTS = {b"ssh": rules.Variant.OPENSSH, **{str(it).encode(): it for it in list(rules.Variant)[1:]}}
# The names of variants that differ from those here.
VARIANT_NAMES = {rules.Variant.OPENSSH: "Ssh", rules.Variant.TORTOISEPLINK: "TortoisePlink"}
# A style in which the result of a call is printed.
WHOLE = b"{:?}"


def named(of):
    """A number by its name in the library, which is in camel case."""
    return of.name.title().replace("_", "")


def reported(value):
    """A value as it is printed: in a text each byte that isn't ASCII as U+EF00 plus the byte."""
    if isinstance(value, str):
        value = value.encode()
    return "".join(chr(it if it < 128 else 0xEF00 + it) for it in value) if isinstance(value, bytes) else value


def reported_or_error(found):
    """A text, or the name of the reason why there is none."""
    return {"error": named(found)} if isinstance(found, int) else reported(found)


def members(of, *names):
    """The fields with these names that aren't None."""
    return {it: reported(getattr(of, it)) for it in names if getattr(of, it) is not None}


def given(order, *names):
    return {it: order.get(it) for it in names}


def config(order):
    return Configuration.from_listing(order["config"])


def reported_entries(of, *more):
    return [members(it, "section", "subsection", "name", "value", *more) for it in of.entries]


def indices(entries, of):
    """The indices of entries in a configuration, by their positions."""
    places = {it.at: index for index, it in enumerate(of.entries)}
    return [places[it.at] for it in entries]


def rewritten(order):
    """The URL after rewriting, which begins with a base of the configuration if it is rewritten."""
    of = config(order)
    found = of.rewrite_fetch(order["text"])
    assert found.base_len == 0 or found.text[: found.base_len] in [it.subsection for it in of.entries]
    return found


def rewritten_push(order):
    return config(order).rewrite_push(order["text"], order.get("has_push_url") == b"true")


def remote(order):
    found = config(order).remote(order["name"])
    lists = {name: [reported(it) for it in getattr(found, name)] for name in ("urls", "push_urls")}
    return {**lists, **members(found, "vcs", "proxy", "uploadpack", "receivepack")}


def permission(order):
    return config(order).permission(order["name"], **given(order, "allow_list", "from_user"))


def reported_permission(order):
    """The decision, and if the style asks for it the setting that decides."""
    found = permission(order)
    entry = f"{{ at: {found.at} }}"
    by = {Decider.BY_LIST: "(AllowList)", Decider.BY_ENTRY: f"(Entry {entry})", Decider.BY_DEFAULT: "(Default)"}
    shown = f" {entry}" if found.decision == Decision.UNKNOWN_ALLOWANCE else by.get(found.by, "")
    return {"shown": named(found.decision) + shown} if order.get("style") == WHOLE else named(found.decision)


def location(order):
    """The location of a text, or of parts, which the caller puts there."""
    return order["location"] if "location" in order else gix_url.parse(order["url"])


def ssh_command(order):
    """The command for the request of an order, in the form of the library: a family is a number."""
    numbers = {"version": int(order["version"]), "family": rules.Family(int(order.get("family", b"0")))}
    service, variant = SERVICES[order["service"]], VARIANTS[order["variant"]]
    return rules.ssh_words(location(order), service, variant=variant, program=order.get("program"), **numbers)


def ssh_words(order):
    found = ssh_command(order)
    return reported_or_error(found) if isinstance(found, rules.SshRefusal) else [reported(it) for it in found.words]


def git_protocol(order):
    version = ssh_command(order).git_protocol
    return version and f"version={version}"


def ssh_program(order):
    found = config(order).ssh_program(**given(order, "git_ssh_command", "git_ssh", "git_ssh_variant"))
    variant = VARIANT_NAMES.get(found.variant, named(found.variant))
    return {**members(found, "text", "is_command_line"), "variant": variant}


def settings(order):
    """The indices of the entries that count; without a text, those that count if no entry with a URL applies."""
    of = config(order)
    return indices(of.settings(order["name"], order.get("text", b"")).entries, of)


def best_entry(order):
    """The value of the entry that counts, or why no entry with a URL applies."""
    found = config(order).settings(order["name"], order["text"])
    if found.why is not None:
        return reported_or_error(found.why)
    return reported(found.entries[0].value) if found.entries else None


def credentials(order):
    of = config(order)
    found = of.credentials(order["text"])
    return found and {"helpers": indices(found.helpers, of), **members(found, "user", "use_http_path")}


def git_reading(order):
    found = rules.git_reading(order["text"])
    if isinstance(found, rules.Unread):
        return reported_or_error(found)
    return {"protocol": named(found.protocol), **members(found, "user", "host", "port", "path")}


def credential_reading(order):
    found = rules.credential_reading(order["text"])
    return found and members(found, "protocol", "user", "password", "host", "path")


def resolved(order):
    found = rules.resolve_submodule(order.get("parent", b"/p"), order["url"])
    return found if isinstance(found, rules.Unresolved) else found.url


def is_relative(order):
    found = rules.resolve_submodule(b"https://h/a/b/c", order["url"])
    return isinstance(found, rules.Unresolved) or found.is_relative


def climbs(order):
    return rules.resolve_submodule(order["parent"], order["url"]).climbs


def submodules(order):
    """The submodules with a path and a URL."""
    listed = [it for it in config(order).submodules() if it.path and it.url]
    update = {it.name: {"update": reported(it.update.value)} if it.update else {} for it in listed}
    return {reported(it.name): {"url": reported(it.url.value), **update[it.name]} for it in listed}


def dangers(order):
    return [str(it) for it in rules.dangers(order.get("text", order.get("url")), location(order))]


def danger(order):
    return next(it for it in rules.Danger if named(it) == order["danger"].decode())


def refusals(order):
    return [str(it) for entry in config(order).entries for it in rules.check_submodule(entry)]


def secrets(order):
    """The pieces of a text. Neighbours of one kind are joined."""
    pieces = rules.secrets(order["text"])
    redacted = b"".join(b"redacted" if it.is_hidden else it.text for it in pieces)
    assert rules.redacted(order["text"]) == redacted.decode(errors="replace")
    joined = itertools.groupby(pieces, lambda it: it.is_hidden)
    return [{"hidden" if is_hidden else "shown": reported(b"".join(it.text for it in of))} for is_hidden, of in joined]


CALLS = {
    "Danger::name": lambda order: str(danger(order)),
    "Danger::words": lambda order: danger(order).words,
    "NormalUrl::parse_in": lambda order: reported_or_error(Configuration().settings(b"k", order["text"]).why),
    "Permission::is_allowed": lambda order: permission(order).decision == Decision.ALLOWED,
    "Protocols::permission": reported_permission,
    "Reader::new": lambda order: reported_entries(config(order), "at"),
    "Refused::as_str": lambda order: str(rules.SubmoduleRefusal[order["error"].decode().upper()]),
    "Remote::of": remote,
    "Resolved::to_bstring": lambda order: reported(resolved(order)),
    "Rewrites::rewrite_fetch": lambda order: reported(rewritten(order).text),
    "Rewrites::rewrite_push": lambda order: reported(rewritten_push(order).text),
    "Rewritten::is_rewritten": lambda order: rewritten(order).is_rewritten,
    "Rewritten::to_bstring": lambda order: reported(rewritten(order).text),
    "SshCommand::git_protocol": git_protocol,
    "SshCommand::to_words": ssh_words,
    "SshProgram::of": ssh_program,
    "config::entries": lambda order: reported_entries(config(order), "at"),
    "config_file::entries": lambda order: reported_entries(Configuration.from_file(order["file"])),
    "credential::reading": credential_reading,
    "credentials::credentials_for": credentials,
    "danger::dangers": dangers,
    "entries::best_entry": best_entry,
    "refusal::check": refusals,
    "resolve::climbs": climbs,
    "resolve::is_relative": is_relative,
    "resolve::resolve": lambda order: reported_or_error(resolved(order)),
    "secret::secrets": secrets,
    "settings::settings_for": settings,
    "settings::settings_without_place": settings,
    "ssh::ssh_command": ssh_words,
    "ssh::ssh_command_for": ssh_words,
    "ssh::ssh_words": ssh_words,
    "submodules::submodules": submodules,
    "text::transport_of": lambda order: reported_or_error(rules.transport_of(order["text"])),
    "transport::reading": git_reading,
}


def outcome(order):
    """The result of a call, or the error that it raises, with its position."""
    try:
        return CALLS[order["call"].decode()](order)
    except rules.NoConfiguration as error:
        return [{"error": named(error.flaw), "at": error.at}]
    except rules.ConfigurationError as error:
        return {"error": error.name, "at": error.at}
    except gix_url.Error:
        return {"halt": "not prepared"}
