//! The conditions under which every reader finds the same parts in the text of a location.

/// A condition under which readers find the same parts in the text of a location. [`Url::unmet_condition`] returns the
/// first one that isn't met. The variants are in the order in which the conditions are tested.
///
/// [`Url::unmet_condition`]: crate::Url::unmet_condition
#[derive(Clone, Copy, Debug, PartialEq, Eq)]
pub enum Condition {
    /// The location is settled, and Git finds the same place in its text.
    Git,
    /// The path is written without escapes.
    Escapes,
    /// The host is an IPv4 address, or a name of at most 253 bytes: labels of at most 63 lower-case letters, digits and
    /// inner `-`, of which none begins with `xn--` and the last begins with a letter. One of the first two labels has a
    /// byte that isn't a digit.
    Host,
    /// The user has only letters, digits, `-`, `.`, `_` and `~`, and doesn't begin with `-`.
    User,
    /// The password has only letters, digits, `-`, `.`, `_` and `~`.
    Password,
    /// The port isn't 0.
    Port,
    /// The path has only letters, digits and a few marks, fewer in the scp form than elsewhere. A local path is any
    /// text without control characters, `:` and `\`.
    PathBytes,
    /// The path of a URL doesn't begin with `//`. The path of Secure Shell, of `git://` and of a file isn't written
    /// with `/~~`, `/-` or `/x:` at its beginning, and that of a file not with `/~`. The path of the scp form doesn't
    /// begin with digits and `/`. A local path has no `//`, isn't `/` alone, and has no `@` unless it begins with `/`.
    PathStart,
    /// The path has no segment `.` or `..`. A local path may have them.
    DotSegment,
    /// The host of the scp form has two bytes or more, and without a user it isn't the name of a scheme.
    ScpHost,
    /// The path of the scp form has a `/` between two bytes.
    ScpPath,
}

impl Condition {
    /// The conditions in the order of their numbers in the library, which begin at 1.
    const ALL: [Condition; 11] = [
        Condition::Git,
        Condition::Escapes,
        Condition::Host,
        Condition::User,
        Condition::Password,
        Condition::Port,
        Condition::PathBytes,
        Condition::PathStart,
        Condition::DotSegment,
        Condition::ScpHost,
        Condition::ScpPath,
    ];

    /// The condition with this number, which isn't 0.
    pub(crate) fn numbered(number: u8) -> Condition {
        Condition::ALL[usize::from(number) - 1]
    }
}
