"""A lexer of Pygments for PCF, as goi reads it: for LaTeX by minted, for Sphinx, for notebooks and for pygmentize."""

from pygments import unistring
from pygments.lexer import RegexLexer, bygroups, words
from pygments.token import Comment, Error, Keyword, Name, Number, Operator, Punctuation, Whitespace

# A name begins with _ or a character of XID_Start, and goes on with characters of XID_Continue.
_NAME = f"[{unistring.xid_start}][{unistring.xid_continue}]*"
_END = f"(?![{unistring.xid_continue}])"


class PcfLexer(RegexLexer):
    """PCF: numbers, functions, fixed points and pairs."""

    name = "PCF"
    aliases = ["pcf"]
    filenames = ["*.pcf"]
    mimetypes = ["text/x-pcf"]
    tokens = {
        "root": [
            (r"[ \t\r\n]+", Whitespace),
            (r"#[^\n]*", Comment.Single),
            (rf"(fun|fix)([ \t\r\n]+)({_NAME})", bygroups(Keyword, Whitespace, Name.Variable)),
            (words(("fun", "fix", "ifz", "then", "else"), suffix=_END), Keyword),
            (words(("succ", "pred", "fst", "snd"), suffix=_END), Name.Builtin),
            (words(("nat",), suffix=_END), Keyword.Type),
            (_NAME, Name),
            (r"[0-9]+", Number.Integer),
            (r"->|[-+*]", Operator),
            (r"[():.,]", Punctuation),
            (r".", Error),
        ]
    }
