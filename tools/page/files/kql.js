// The colours of the language, as a mode of CodeMirror.

const STRING = /^(?:@"(?:[^"]|"")*"?|@'(?:[^']|'')*'?|"(?:[^"\\]|\\.)*"?|'(?:[^'\\]|\\.)*'?)/;
const NUMBER = /^(?:0x[0-9a-fA-F]+|\d+(?:\.\d+)?(?:microsecond|tick|ms|[dhms])(?![A-Za-z0-9_])|\d+(?:\.\d+)?(?:[eE][+-]?\d+)?)/;
const WORD = /^(?:project-away|project-rename|mv-expand|materialized-view|alter-merge|in~|[A-Za-z_$][A-Za-z0-9_]*)/;

// The kind of each word: what docs/LANGUAGE.md lists.
function kindsOf(language) {
  const kinds = new Map();
  const put = (words, kind) => words.forEach((word) => kinds.has(word) || kinds.set(word, kind));
  put(Object.keys(language.operators), "keyword");
  put(language.reserved, "keyword");
  put(["materialized_view", "materialized-view", "alter-merge", "in~", "create", "ingest", "alter", "show", "fold", "merge", "export", "over"], "keyword");
  put(language.parts, "keyword");
  put(language.types, "type");
  return kinds;
}

export function defineMode(language) {
  const kinds = kindsOf(language);
  const calls = new Set([...Object.keys(language.functions), ...Object.keys(language.aggregates)]);
  CodeMirror.defineMode("kql", () => ({
    startState: () => ({ long: false, data: false }),
    token(stream, state) {
      if (state.data) {
        stream.skipToEnd();
        return "string";
      }
      if (state.long) {
        state.long = !stream.match(/^.*?```/);
        if (state.long) stream.skipToEnd();
        return "string-2";
      }
      return plainToken(stream, state, kinds, calls);
    },
    blankLine(state) {
      state.long = state.data = false;
    },
    lineComment: "//",
  }));
}

function plainToken(stream, state, kinds, calls) {
  if (stream.eatSpace()) return null;
  if (stream.match("//")) {
    stream.skipToEnd();
    return "comment";
  }
  if (stream.match("```")) {
    state.long = !stream.match(/^.*?```/);
    if (state.long) stream.skipToEnd();
    return "string-2";
  }
  if (stream.match("<|")) {
    state.data = true;
    return "operator";
  }
  if (stream.match(STRING)) return "string";
  if (stream.match(NUMBER)) return "number";
  const word = stream.match(WORD);
  if (word) return wordKind(word[0], stream, kinds, calls);
  stream.next();
  return /[|=<>!+\-*/%~#]/.test(stream.current()) ? "operator" : null;
}

function wordKind(word, stream, kinds, calls) {
  const isCalled = stream.match(/^\s*\(/, false);
  if (isCalled && calls.has(word)) return "builtin";
  if (word === "true" || word === "false") return "atom";
  return kinds.get(word) ?? "variable";
}
