"""Habits of Java, one row each: how one is recognised around the place of a fault, what is said of it, and what to write.

A pattern is one of the text without its comments. A mend is None, what is put in place of the match (with groups of the pattern), or a
function that gives edits for a match. Of the rows whose pattern holds the place the first one counts whose mend helps.
"""

import re
from typing import Callable, NamedTuple, Optional, Union

from . import conditionals, rewrites

MODIFIERS = "public|private|protected|static|abstract|synchronized|native|transient|volatile|strictfp|const"
TYPE = r"(?:final\s+)?\b[A-Za-z_]\w*(?:<[^<>;{}()]*>)?(?:\s*\[\s*\](?:<[^<>;{}()]*>)?(?:#\w+)?)*"
PLAIN = r"[A-Za-z_]\w*(?:\.[A-Za-z_]\w*|\[[^\[\];]*(?:\[[^\[\];]*\][^\[\];]*)?\])*"
NAMES = r"[A-Za-z_]\w*\s*(?:=[^;]*?)?,[^;]*?"
WORDS = "in|class|reads|writes|pure|atomic|region|print|foreach|cobegin|extends|Root|int|boolean|new|void"
LIBRARY = "List|ArrayList|LinkedList|Vector|Map|HashMap|TreeMap|Set|HashSet|TreeSet|Queue|Deque|ArrayDeque|PriorityQueue|Stack|Optional|Iterator"
LIBRARY += "|StringBuilder|Scanner|Random|AtomicInteger|AtomicLong|Runnable|Callable|Executor|ExecutorService|Executors|Future"
LIBRARY += "|CompletableFuture|Stream|Arrays"
WORD = r"(?!return\b|new\b|else\b|in\b|reads\b|writes\b|extends\b|class\b|region\b|import\b|package\b|goto\b|throw\b|case\b)"
Mend = Optional[Union[str, Callable]]


class Habit(NamedTuple):
    """A row of the table."""

    name: str
    pattern: re.Pattern
    says: str
    mend: Mend = None


def row(name, pattern, says, mend=None):
    return Habit(name, re.compile(pattern, re.S), says, mend)


HABITS = [
    row("byte-order-mark", r"\A\xef\xbb\xbf", "The text begins with a byte order mark, three bytes that some editors put there and don't show."
        " Save it as UTF-8 without one.", ""),
    row("open-comment", r"/\*(?!.*\*/)", "A comment `/*` goes on to the next `*/`, and this one has none.", None),
    row("open-literal", r"\"(?:\\[^\n]|[^\"\\\n])*(?=\n|\Z)\n?", "A text literal ends on its line, with a `\"`.", rewrites.close_literal),
    row("escape", r"\\[^nt\"\\]", "In a text literal `\\` stands before `n`, `t`, `\"` or another `\\`.", lambda match, _: [
        rewrites.Edit(match.start(), match.start(), "\\")]),
    row("blank", r"\xc2\xa0|\xe2\x80[\x80-\x8f\xaf]|\xef\xbb\xbf",
        "Here stands a blank or mark that isn't ASCII, and looks like a blank or like nothing.",
        " "),
    row("quotes", r"\xe2\x80[\x9c-\x9f]", "Here stands a quotation mark as in print; a text literal is written between `\"`.", '"'),
    row("dash", r"\xe2\x80[\x90-\x95]|\xe2\x88\x92", "Here stands a dash as in print; a minus is `-`.", "-"),
    row("not-ascii", r"[\x80-\xff]+", "Outside of comments and text literals a text is ASCII, names as well.", None),
    row("import", r"\b(?:import|package)\b[^;{}]*;", "There are no packages and no library: a program is one text with all its classes.", ""),
    row("library", rf"\b(?:{LIBRARY})\b[^;{{}}]*;?",
        "There is no library. A list is a class with a link to the next one, or an array; a table is an array too.", rewrites.unless_declared),
    row("diamond", r"(?P<lead>\bnew\s+\w+)\s*<\s*>",
        "Region arguments are written out; a list that is left out is `Root` for each parameter.", r"\g<lead>"),
    row("annotation", r"@\s*\w+(?:\s*\([^()]*\))?", "There are no annotations.", ""),
    row("implements", r"\bimplements\b[^{]*(?=\{)", "There are no interfaces; a class may extend one class.", ""),
    row("interface", r"\b(?:interface|enum|record)\s+\w+", "There are no interfaces, enums and records. A class whose methods are overridden serves"
        " for an interface, and int constants for an enum.", None),
    row("throws", r"\bthrows\s+[\w., ]+", "There are no exceptions.", ""),
    row("synchronized", r"\bsynchronized\s*\([^{}]*?\)\s*(?=\{)", "There is no `synchronized`. A block runs as at one moment where it is `atomic { .. }`,"
        " in a branch of `cobegin_nd` or `foreach_nd`.", "atomic "),
    row("synchronized", rf"(?P<lead>\bsynchronized\s+)(?=\w+(?:\[\])*\s+\w+\s*\()",
        "There is no `synchronized`. What a body is to do as at one moment stands in an `atomic { .. }` in it.", ""),
    row("constant", rf"(?:\b(?:{MODIFIERS})\b\s+)*\bfinal\b\s+(?:\b(?:{MODIFIERS})\b\s+)*(?P<type>int|boolean)\s+(?P<name>[A-Za-z_]\w*)\s*="
        rf"(?P<value>[^;{{}}]*);",
        "A field has no value in its declaration, and nothing is constant for a class: a method without effects gives a constant, and is called "
        "as `this.name()`.", rewrites.constant_method),
    row("modifier", rf"(?:\b(?:{MODIFIERS})\b\s+)+(?:final\s+)?(?P<rest>\w+\b(?:\s+\w+)?)",
        "There are no `public`, `private`, `static` and the like:"
        " everything is visible, and belongs to an object.", lambda match, _: [rewrites.Edit(match.start(), match.start("rest"), "")]),
    row("final-formal", r"(?<=[(,])\s*\bfinal\s+(?=\w[^;]*?\)\s*(?:pure|reads|writes|\{))",
        "Formals are written without `final`. An index variable in"
        " the body is a `final int` local that takes the formal.", ""),
    row("final-member", r"\bfinal\s+(?=(?:class|void)\b|\w+(?:<[^;(){}]*>)?(?:\[\])*\s+\w+\s*(?:\(|;|=|in\b))",
        "`final` is for locals alone, not for"
        " fields, methods or classes.", ""),
    row("type-parameter", r"(?<=[<,])\s*type\s+\w+\s*(?:,\s*|(?=>))", "The parameters of a class are regions; there are no type parameters, so that a"
        " class is written for each type of elements.", ""),
    row("parameters-behind", r"(?P<result>\b[A-Za-z_]\w*(?:\[\])*)\s+(?P<name>\w+)\s*(?P<params><\s*(?:(?:atomic\s+)?region\b)[^<>{}()]*>)\s*(?=\()",
        "The region parameters of a method stand in front of its result.", r"\g<params> \g<result> \g<name>"),
    row("parameters-before-class", r"(?P<params><\s*(?:atomic\s+)?region\b[^<>{}()]*>)\s*(?P<head>class\s+\w+)",
        "The region parameters of a class stand behind its name.", r"\g<head>\g<params>"),
    row("arguments-behind", rf"(?P<of>{PLAIN})\.(?P<name>\w+)\s*(?P<args><[\w\s.,:*?\[\]]*>)\s*(?=\()",
        "The region arguments of a call stand behind the dot, in front of the"
        " method's name.", r"\g<of>.\g<args>\g<name>"),
    row("arguments-behind", r"(?<![\w.])(?<!new )(?P<name>(?!new\b)[a-z]\w*)\s*(?P<args><[\w\s.,:*?\[\]]*>)\s*(?=\([^;{}]*;)",
        "A method is called on its object, and"
        " the region arguments stand behind the dot.", r"this.\g<args>\g<name>"),
    row("arguments-alone", r"(?<![\w.\])>])(?P<args><(?!\s*(?:atomic|region)\b)[\w\s.,:*?\[\]]+>)\s*(?P<name>[a-z]\w*)\s*(?=\([^;{}]*;)",
        "A method is called on its object.", r"this.\g<args>\g<name>"),
    row("new-alone", r"(?P<new>\bnew\s+[A-Z]\w*(?:<[^<>;(){}]*>)?)\s*(?=[;,)])",
        "A creation has parentheses, also where there is no constructor.", r"\g<new>()"),
    row("index-name-first", r"(?P<index>#\s*\w+)\s*(?P<path><[^<>;(){}]*>)", "The region of an array comes before its index name.", r"\g<path>\g<index>"),
    row("summary-twice", r"(?P<kind>\b(?:reads|writes)\b)(?P<one>[\w\s.,:*?\[\]]*?)\s+(?P=kind)\s+",
        "Each kind of effect is named once; its regions are joined by commas.", r"\g<kind>\g<one>, "),
    row("pure-alone", r"\bpure\s+(?=(?:reads|writes)\b)", "`pure` stands alone, and means that there are no effects.", ""),
    row("index-behind-name", r"(?P<head>(?:<|\b(?:in|reads|writes|atomic)\s|,)\s*[A-Z][\w.:\[\]]*?)\s*(?P<index>\[[\w?]+\])", "An index in a path stands"
        " behind a colon, as in `A:[i]`.", r"\g<head>:\g<index>"),
    row("index-without-brackets", r"(?P<head>[A-Z]\w*\s*:\s*)(?P<index>[a-z0-9]\w*|\?)(?=\s*[>,;:{])",
        "An index in a path stands in brackets, as in `A:[i]`.", r"\g<head>[\g<index>]"),
    row("all-regions", r"(?P<lead>(?:\b(?:reads|writes|atomic|in)\b|[,<])\s*)(?:\*|\?)", "All regions together are `Root:*`.", r"\g<lead>Root:*"),
    row("region-tree", r"(?P<lead>\bregion\s[\w\s,]*?)\w+(?:\s*[:.]\s*\w+)*\s*[:.]\s*(?P<last>\w+)",
        "A declaration of regions has plain names; how they lie below"
        " each other is written in paths, as in `int x in A:B;`.", r"\g<lead>\g<last>"),
    row("summary-first", rf"(?P<summary>\b(?:pure|(?:reads|writes)\b[\w\s.,:*?\[\]]*?))\s+"
        rf"(?P<head>(?:int|boolean|void|[A-Z]\w*(?:<[^<>]*>)?)(?:\[\])*\s+\w+\s*\([^(){{}}]*\))",
        "A summary stands behind the formals.", r"\g<head> \g<summary>"),
    row("no-body", r"(?P<head>\b(?P<result>int|boolean|void|[A-Z]\w*(?:<[^<>;]*>)?(?:\[\])*)\s+\w+\s*\([^(){};]*\)[\w\s.,:*?\[\]]*);",
        "Each method has a body. One that subclasses override has one too, say with a result that stands for none.", rewrites.body_of_none),
    row("object-of-cpp", r"(?P<type>\b[A-Z]\w*(?:<[^<>;(){}]*>)?)\s+(?P<name>[a-z_]\w*)\s*\((?P<actuals>[^;{}]*)\)\s*;", "An object is created by"
        " `new`.", rewrites.created_local),
    row("default-actual", rf"(?P<lead>[(,]\s*{TYPE}\s+\w+)\s*=[^=,;(){{}}]+(?=[,)][^;{{}}]*\{{)",
        "A formal has no value of its own: each call gives it one.", r"\g<lead>"),
    row("varargs", r"\s*\.\.\.\s*(?=\w+\s*\))", "A method has a fixed number of formals; more values are handed on in an array.", "[] "),
    row("label", r"\b[A-Za-z_]\w*\s*:\s*(?=(?:while|for|do|foreach|\{)\b)", "There are no labels, and no `break` out of a loop.", ""),
    row("comment-in-comment", r"\*/", "A comment ends at the first `*/`, so one inside another ends both; here stands a `*/` that closes none.", ""),
    row("then", r"\)\s*then\b\s*", "No `then` stands behind the condition of an `if`.", ") "),
    row("type-parameter", r"(?<=<)\s*(?P<name>[A-Z]\w*)(?=\s*[>,|])", "The parameters of a class are regions, and are written"
        " `<region P>`; there are no type parameters.", r"region \g<name>"),
    row("extends-two", r"(?P<lead>\bextends\s+\w+(?:<[^<>]*>)?)\s*,\s*[^{]*", "A class extends one class at most.", r"\g<lead> "),
    row("super", r"\bsuper\s*\([^()]*\)\s*;", "There is no `super`, and a superclass has no constructor: what it would do goes into a method.", ""),
    row("this-call", r"\bthis\s*\([^()]*\)\s*;", "A class has one constructor, and doesn't call it.", ""),
    row("nested-class", r"\bclass\s+\w+", "Classes stand side by side in a text, not inside each other; a missing `}` before it looks the same.",
        None),
    row("foreach-like-for", r"\bforeach(?:_nd)?\s*\([^;{}()]*;[^{}]*?\)", "`foreach (int i in start, count)` takes a start and a count.",
        rewrites.parallel_loop),
    row("foreach-of", r"\bforeach(?:_nd)?\s*\(\s*[^;:(){}]*:[^;{}]*?\)",
        "`foreach (int i in start, count)` goes through a start and a count of numbers;"
        " the elements of an array `a` are `a[i]` with `i` in `0, a.length`.", None),
    row("foreach-until", r"(?P<lead>\bforeach(?:_nd)?\s*\(\s*int\s+\w+\s+in\s+[^;{}.,]*?)\s*(?:\.\.+|\b(?:to|until|upto|til)\b|:|;|\s-\s)\s*",
        "A loop has a start and a count with a comma between, as in `0, n`.", r"\g<lead>, "),
    row("foreach-stride", r"(?P<lead>\bforeach(?:_nd)?\s*\(\s*int\s+\w+\s+in\s+[^;{},]*,[^;{},]*?)\s*,[^;{},]*?(?=\)\s*[{\w])", "A loop has a start"
        " and a count, and no stride: compute the index from the variable, or choose another order of the array.", r"\g<lead>"),
    row("foreach-array", r"(?P<lead>\bforeach(?:_nd)?\s*\(\s*int\s+\w+\s+in\s+)(?P<of>[\w.]+)\s*(?=\))",
        "A loop goes through a start and a count of numbers; the elements of an array `a` are `a[i]` with `i` in `0, a.length`.",
        rewrites.from_zero),
    row("parallel-for", r"\b(?:parallel|par|parfor|pfor|forall|parallel_for)\b\s*(?:for\s*)?(?=\()[^{}]*?",
        "Iterations that may run side by side are those of `foreach (int i in start, count)`.", rewrites.parallel_loop),
    row("foreach-without-int", r"(?P<lead>\bforeach(?:_nd)?\s*\(\s*)(?=\w+\s+in\b)", "The variable of a loop is declared in it.", r"\g<lead>int "),
    row("for-each", r"\bfor\s*\((?=[^;{}]*?:)",
        "There is no `for`; a `while` goes through the indices, or a `foreach` where the iterations may run side by side.",
        rewrites.each_loop),
    row("for", r"\bfor\s*\([^{}]*?", "There is no `for`. A `while` does the same one after another; where the iterations may run side by side:"
        " `foreach (int i in start, count)`.", rewrites.counting_loop),
    row("for", r"\bfor\s*\([^{}]*?\)\s*", "There is no `for`; a `while` does the same.", rewrites.counting_loop),
    row("do", r"\bdo\b\s*(?=\{|\w)", "There is no `do`. Write the body once before a `while`.", rewrites.do_while),
    row("switch", r"\bswitch\s*\([^{}]*?\)\s*\{?", "There is no `switch`. Write `if (x == 1) .. else if (x == 2) .. else ..`.", None),
    row("case", r"\b(?:case\b[^:;{}]*|default\s*):",
        "There is no `switch`, so there are no cases. Write `if (x == 1) .. else if (x == 2) .. else ..`.", None),
    row("break", r"\b(?:break|continue)\b[\s\w]*;", "There is no `break` and no `continue`. Let a boolean local end the loop, as in"
        " `while (!done && ..)`, or put the loop into a method of its own and `return` from it.", None),
    row("exceptions", r"\b(?:try\b\s*(?:\([^{}]*\)\s*)?\{?|catch\b\s*\([^()]*\)\s*\{?|finally\b\s*\{?|throw\b[^;]*;)",
        "There are no exceptions: a trap ends"
        " the run. Test before what may fail, and hand on by the result what happened.", None),
    row("assert", r"\bassert\b[^;]*;", "There is no `assert`.", None),
    row("fork-join", r"\b(?:spawn|sync|async|await|finish|fork|join)\b\s*(?:\{|this\b|\w+|;|\()",
        "Branches stand side by side in a `cobegin { .. }`, which goes on when all have ended: `cobegin { a = this.f(1); b = this.f(2); }`.", None),
    row("lambda", r"(?:\([\w\s,]*\)|\w+)\s*->|::",
        "There are no lambdas and method references. A class with a method that is overridden serves for one.", None),
    row("instanceof", r"\binstanceof\b", "There is no `instanceof`, and no cast. Let the classes override a method that says which one it is.",
        None),
    row("println", r"\bSystem\s*\.\s*(?:out|err)\s*\.\s*print(?:ln|f)?\s*\((?=\s*\))",
        "A line is printed by `print(e);`, and there is no empty one.", None),
    row("println-sum", r"\bSystem\s*\.\s*(?:out|err)\s*\.\s*print(?:ln|f)?\s*\([^;]*\"[^;]*\+[^;]*\)\s*",
        "`print` takes one int, boolean or text, and"
        " ends the line; there are no strings to be put together.", rewrites.text_and_values),
    row("println", r"\b(?:System\s*\.\s*(?:out|err)\s*\.\s*print(?:ln|f)?|println|printf|echo)\s*\((?:\s*\")?",
        "What is printed is an int, a boolean"
        " or a text: `print(e);`.", lambda match, _: [rewrites.Edit(match.start(), match.group().index("(") + match.start(), "print")]),
    row("print-bare", r"\bprint\s+(?P<value>[^;{}(][^;{}]*);",
        "What is printed stands in parentheses: `print(e);`.", r"print(\g<value>);"),
    row("print-sum", r"\bprint\s*\((?=[^;]*\")[^;]*[+,][^;]*\)\s*",
        "`print` takes one int, boolean or text, and ends the line. There are no strings"
        " to be put together.", rewrites.text_and_values),
    row("print-several", r"\bprint\s*\([^;]*,[^;]*\)\s*", "`print` takes one value.", rewrites.text_and_values),
    row("print-nothing", r"\bprint\s*\(\s*\)\s*;", "`print` takes a value; there is no empty line.", 'print("");'),
    row("string", r"\bString\b(?P<rest>[^;{}]*;?)", "There is no String. A text is a literal that is printed, `print(\"..\")`, and nothing else;"
        " number what is to be told apart.", None),
    row("string-literal", r"\"(?:\\.|[^\"\\\n])*\"", "A text literal stands in `print(\"..\")` alone. There are no strings.", None),
    row("character", r"'(?:\\.|[^'\\\n])+'", "There are no characters. Write the number.", rewrites.character),
    row("floating", r"\b[0-9]+\.[0-9]+(?:[eE][-+]?[0-9]+)?[fFdD]?|\b[0-9]+[eE][-+]?[0-9]+\b|\b[0-9]+[fFdD]\b",
        "There is no floating point. Count in"
        " fixed parts, say thousandths: 1500 for 1.5, and divide by 1000 after a product.", None),
    row("other-base", r"\b0[xXbB][0-9a-fA-F_]+[lL]?\b", "Numbers are written in decimal.", rewrites.plain_number),
    row("underscore", r"\b[0-9][0-9_]*_[0-9_]*[lL]?\b", "Numbers are written without underscores.", rewrites.plain_number),
    row("long-literal", r"\b[0-9]+[lL]\b", "There is no `long`; an int has 32 bits.", rewrites.plain_number),
    row("same", r"===", "Two values are compared by `==`.", "=="),
    row("not-same", r"!==|<>", "Two values are compared by `!=`.", "!="),
    row("at-least", r"=>", "Written `>=`.", ">="),
    row("at-most", r"=<", "Written `<=`.", "<="),
    row("compared-alone", rf"(?<=[;{{}}])\s*{PLAIN}\s*(?P<sign>==)(?!=)[^;{{}}=]*;",
        "A comparison alone is no statement, and does nothing; a value is assigned by `=`.",
        lambda match, _: [rewrites.Edit(match.start("sign"), match.end("sign"), "=")]),
    row("assigned-as-in-pascal", r":=", "A value is assigned by `=`.", "="),
    row("step", rf"(?P<step>{PLAIN}\s*(?:\+\+|--)|(?:\+\+|--)\s*{PLAIN})\s*;", "There is no `++` and no `--`.", rewrites.whole_step),
    row("step-inside", rf"(?P<step>(?P<name>{PLAIN})\s*(?:\+\+|--))\s*", "There is no `++` and no `--`; an assignment is a statement of its own.",
        rewrites.step_in_expression),
    row("step-inside", rf"(?P<step>(?:\+\+|--)\s*(?P<name>{PLAIN}))", "There is no `++` and no `--`; an assignment is a statement of its own.",
        rewrites.step_in_expression),
    row("compound", rf"(?P<step>{PLAIN}\s*[-+*/%]=(?!=)[^;]*);", "There is no `+=` and the like.", rewrites.whole_step),
    row("compound-boolean", rf"(?P<target>{PLAIN})\s*(?P<sign>[&|])=(?P<value>[^;]*);", "There is no `&=` and no `|=`.",
        r"\g<target> = \g<target> \g<sign>\g<sign> (\g<value>);"),
    row("compound-bits", rf"(?P<target>{PLAIN})\s*(?P<sign><<|>>>?|\^)=(?P<value>[^;]*);", "There are no operators on bits.", None),
    row("unary-plus", r"(?<=[=(,\[<>+*/%&|-])\s*\+\s*(?=[\w(])|(?<=return)\s*\+\s*(?=[\w(])", "There is no sign `+` in front of a number.", " "),
    row("conditional", r"(?<=[;{})])(?:[^;{}?]|(?<=\[)\?(?=\]))*(?<!\[)\?[^;{}]*;",
        "There is no `? :`. Write an `if` with an `else`.", conditionals.conditional),
    row("conditional", r"(?<!\[)\?", "There is no `? :`. Take the value into a local by an `if` with an `else` before the statement.",
        conditionals.conditional_inside),
    row("shift", r"(?P<sign><<|>>>?)\s*(?P<by>[0-9]+)", "There are no operators on bits. A shift is a product or a quotient of a power of two (a"
        " quotient rounds towards zero, so it differs for numbers below 0).", rewrites.shifted),
    row("shift", r"<<|>>>?", "There are no operators on bits. A shift is a product or a quotient of a power of two.", None),
    row("mask", r"(?P<sign>&)\s*(?P<mask>0[xX][0-9a-fA-F]+|[0-9]+)\b", "There are no operators on bits. For numbers that aren't below 0, `x & 1` is"
        " `x % 2`.", rewrites.masked),
    row("and", r"(?<!&)&(?!&)",
        "There is no `&`: booleans are joined by `&&`, and of a number `x % 2` (or another power of two) is the lowest bits.", "&&"),
    row("or", r"(?<!\|)\|(?!\|)", "There is no `|`: booleans are joined by `||`, and there are no operators on bits.", "||"),
    row("exclusive-or", r"\^|~", "There are no operators on bits, and no power. Two booleans differ where `a != b`.", None),
    row("exclusive-or", r"\^", "There is no `^`; two booleans differ where `a != b`.", "!="),
    row("cast", r"\(\s*(?:int|long|short|byte|char|double|float|boolean|[A-Z]\w*(?:<[^<>;(){}]*>)?)\s*\)\s*(?=[\w(])", "There are no casts.", ""),
    row("two-indices", r"\[(?P<one>[^\[\],;{}]+),\s*(?P<two>[^\[\],;{}]+)\]", "Each index stands in brackets of its own.", r"[\g<one>][\g<two>]"),
    row("two-lengths", r"\bnew\s+(?P<base>\w+)\s*\[(?P<one>[^\[\]]*)\]\s*\[(?P<two>[^\[\]]*)\]",
        "A creation makes one array. Its length comes last,"
        " and `new int[][n]` is an array of n arrays, each of which is made by itself: `m[k] = new int[..];`.", r"new \g<base>[][\g<one>]"),
    row("array-values", rf"(?P<type>(?P<base>\w+(?:<[^<>;]*>)?)\s*\[\s*\](?P<rest>(?:<[^<>;]*>)?(?:#\w+)?))\s+(?P<name>\w+)\s*=\s*(?P<opened>\{{)",
        "There are no array literals. Make the array, and assign its elements.", rewrites.array_values),
    row("array-values", r"(?P<type>(?P<base>\w+)\s*\[\s*\](?P<rest>))\s*(?P<name>\w+)\s*=\s*new\s+\w+\s*\[\s*\]\s*(?P<opened>\{)",
        "There are no array"
        " literals. Make the array, and assign its elements.", rewrites.array_values),
    row("array-values", rf"(?P<base>\b\w+)\s+(?P<name>\w+)\s*\[\s*\]\s*=\s*(?P<opened>\{{)",
        "There are no array literals, and the brackets belong to"
        " the type.", lambda match, source: rewrites.array_values(Renamed(match), source)),
    row("array-values", r"(?:=|\])\s*\{", "There are no array literals. Make the array by `new T[n]`, and assign its elements.", None),
    row("brackets-behind", rf"(?P<type>{WORD}\b[A-Za-z_]\w*(?:<[^<>;(){{}}]*>)?)\s+(?P<name>[A-Za-z_]\w*)\s*\[\s*\]",
        "The brackets belong to the type.",
        r"\g<type>[] \g<name>"),
    row("length-in-type", rf"(?P<type>{WORD}\b[A-Za-z_]\w*)\s+(?P<name>[A-Za-z_]\w*)\s*\[(?P<length>[^\[\];]+)\]\s*;",
        "An array is an object that is"
        " created.", r"\g<type>[] \g<name> = new \g<type>[\g<length>];"),
    row("length-in-type", rf"(?P<type>{WORD}\b[A-Za-z_]\w*)\s*\[(?P<length>[^\[\];]+)\]\s+(?P<name>[A-Za-z_]\w*)\s*;",
        "An array is an object that is"
        " created.", r"\g<type>[] \g<name> = new \g<type>[\g<length>];"),
    row("several", rf"(?P<type>{WORD}{TYPE})\s+(?P<names>{NAMES})\s*;", "Each local and each field has a declaration of its own.",
        rewrites.declarators),
    row("no-value", rf"(?P<type>{WORD}{TYPE})\s+(?P<name>[A-Za-z_]\w*)\s*;", "A local has a value from its declaration on.", rewrites.no_value),
    row("field-value", rf"(?P<lead>{WORD}{TYPE}\s+\w+(?:\s+in\s+[\w.:\[\]]+)?)\s*=\s*[^;{{}}]*;",
        "A field has no value in its declaration, and begins as 0,"
        " false or null. The constructor sets it, or in Main the method main.", r"\g<lead>;"),
    row("class-end", r"(?<=\})\s*;", "No semicolon follows a `}`.", ""),
    row("empty", r"(?<=[;{)])\s*;", "There is no empty statement; a body that does nothing is `{ }`.", rewrites.empty_statement),
    row("target-in-parentheses", rf"(?P<lead>[;{{}}]\s*)\(\s*(?P<target>{PLAIN})\s*\)\s*(?==[^=])", "What is assigned isn't in parentheses.",
        lambda match, _: [rewrites.Edit(match.end("lead"), match.end(), match["target"] + " ")]),
    row("assigned-call", r"(?<=[;{}])[^;{}=]*\)\s*=(?!=)",
        "What is assigned is a local, a field or an element; the result of a call is no target. Let a method with a formal set it.", None),
    row("assigned-twice", rf"(?P<one>{PLAIN})\s*=\s*(?P<two>{PLAIN})\s*=(?!=)\s*(?P<value>[^;=]*);",
        "An assignment is a statement, and has no value.",
        r"\g<two> = \g<value>; \g<one> = \g<two>;"),
    row("assigned-in-condition", r"\b(?:if|while|return)\b[^;{}=]*(?<![=!<>])=(?=[^=])",
        "An assignment is a statement, and no condition; values are compared by `==`.",
        lambda match, _: [rewrites.Edit(match.end() - 1, match.end(), "==")]),
    row("chain", r"(?P<one>[\w.]+)\s*(?P<first><=?|>=?)\s*(?P<two>[\w.]+)\s*(?P<second><=?|>=?)(?=\s*[\w(-])", "Comparisons don't chain.",
        r"\g<one> \g<first> \g<two> && \g<two> \g<second>"),
    row("words", r"\band\b", "Conditions are joined by `&&`.", "&&"),
    row("words", r"\bor\b", "Conditions are joined by `||`.", "||"),
    row("words", r"\bnot\b\s*", "A condition is turned round by `!`.", "!"),
    row("power", r"\*\*", "There is no power; multiply in a loop.", None),
    row("result-behind", r"\)\s*(?::|->)\s*\w+(?=\s*(?:\{|reads|writes|pure))", "The type of a result stands in front of the method's name.", None),
    row("else-if", r"\b(?:elif|elseif|elsif)\b", "Written `else if`.", "else if"),
    row("summary-comma", r",\s*(?=writes\b)", "No comma stands between the reads and the writes of a summary.", " "),
    row("summary-order", r"(?P<writes>\bwrites\b[\w\s.,:*?\[\]]*?)\s+(?P<reads>\breads\b[\w\s.,:*?\[\]]*?)\s*(?=\{)",
        "In a summary the reads come before the"
        " writes.", r"\g<reads> \g<writes> "),
    row("delete", r"\b(?:delete|free|goto|synchronized|let|def|func|function)\b\s*\w*\s*", "There is no such statement.", None),
    row("keyword", rf"(?:\b(?:int|boolean|void)|\w[>\]])\s+(?P<word>\b(?:{WORDS})\b)\s*(?=[=;,)(])",
        "This name is a keyword here.", lambda match, _: [rewrites.Edit(match.start("word"), match.end("word"), match["word"] + "1")]),
    row("value-alone", rf"(?<=[;{{}}])\s*(?:{PLAIN}|[0-9]+)\s*;",
        "A statement is an assignment, a call or a creation; a value alone does nothing.", ""),
]  # fmt: skip


class Renamed:
    """The match of `T a[] = {` as if the brackets stood at the type."""

    def __init__(self, match):
        self.match = match

    def __getitem__(self, name):
        return {"type": self.match["base"] + "[]", "rest": ""}.get(name) if name in ("type", "rest") else self.match[name]

    def start(self, *name):
        return self.match.start(*name)
