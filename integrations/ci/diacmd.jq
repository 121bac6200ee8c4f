# What jq makes of answers of `diacmd .. --json`, for `jq -rn -L integrations/ci 'include "diacmd"; ..'`. docs/JSON.md has recipes.

# The objects of an answer, those of refused inputs among them. Fails where there is none.
def answers:
  foreach (inputs, null) as $it (0; . + 1;
    if $it then $it elif . == 1 then error("there is no answer") else empty end);

# Whether an input is refused; with --lines a line that is no message is an answer.
def is_refused: .error and (.error != "message" or has("column") or (has("line") | not));

# The line of a refused input, with its column and what was expected there.
def refusal:
  ([.error, .kind, .name, .slot] | map(select(.)) | "\(.[0]): \(.[1:] | join(" "))")
  + (if .line then " at line \(.line)" else "" end)
  + (if .column then ", column \(.column)" else "" end)
  + (if .expected then ": expected \(.expected | join(" or "))" else "" end);

# The objects of an answer. Fails where there is none, and where an input is refused.
def objects: answers | if is_refused then error(refusal) else . end;

# The lines of `breaking`. Fails also where the object after them is missing.
def breaks:
  foreach (objects, null) as $it ({}; {$it, is_whole: ($it // {causes: .is_whole} | .causes)};
    if .is_whole then empty elif .it then .it else error("the answer isn't whole") end);

# The words of a line of `breaking`: its place, its cause, and its detail.
def place:
  (.first // .)
  | [.command + (if .application then "[application \(.application)]" else "" end)] + .path
  | join("/");
def cause: [(if .undecided then "undecided" else empty end), .reason // empty, .refused_application // .avp.name // "-"] | join(" ");
def detail:
  if .reason == "command" or .reason == "application" then "not accepted" else
    [
      (if .behind then "behind \(.behind) sent" elif .sent then "\(.sent) sent" elif .reason == "unknown" then "sent" else empty end),
      (if .accepted then "\(.accepted) accepted" elif .read then "\(.read) read" else empty end),
      (if .reason == "unknown" then "not known" elif .reason == "format" and (.accepted | not) then "not in the list" else empty end)
    ] | join(", ")
  end
  + (if .commands then ", in \(.commands) command\(if .commands == 1 then "" else "s" end)" else "" end);

# A test case of JUnit.
def test_case:
  if .failed then @html "<testcase classname=\"breaking\" name=\"answer\"><error message=\"\(.failed)\"/></testcase>"
  elif .stale then @html "<testcase classname=\"accepted\" name=\"\(.stale)\"><failure message=\"stale\"/></testcase>"
  else @html "<testcase classname=\"\(place)\" name=\"\(cause)\"><failure message=\"\(detail)\"/></testcase>" end;

# The lines of `breaking` as a JUnit file: a failure for each, or an error where the answer isn't whole.
def junit:
  [try breaks catch {failed: .}]
  | (map(select(.failed)) | length) as $errors
  | @html "<testsuite name=\"breaking\" tests=\"\([length, 1] | max)\" failures=\"\(length - $errors)\" errors=\"\($errors)\">",
    (if length == 0 then "<testcase classname=\"breaking\" name=\"nothing else breaks\"/>" else .[] | test_case end),
    "</testsuite>",
    (.[] | .failed // empty | error);

# The verdicts of `check --lines` as annotations of GitHub: one for each line that is no valid message.
def annotations($file):
  (try objects catch {failed: .})
  | if .failed then "::error::\(.failed | gsub("%"; "%25"))", (.failed | error)
    elif .verdict == "valid" then empty
    else "::error file=\($file),line=\(.line)::\([.code, .reason // .verdict // .kind, .avp.name // .avp.code] | map(select(.)) | join(" "))" end;

# The lines of `breaking` as annotations of GitHub, each at its position in the text of B, if it has one.
def break_annotations($file):
  (try breaks catch {failed: .})
  | if .failed then "::error::\(.failed | gsub("%"; "%25"))", (.failed | error)
    else "::error file=\($file)\(if .b then ",line=\(.b.line),col=\(.b.column)" else "" end)::\((.text // "stale: \(.stale)") | gsub("%"; "%25"))" end;

# Where the text of a dictionary is refused, as editors read it: the file, the line and the column, and what was expected there.
def places($file):
  answers | select(.error)
  | ([$file, .line, (if .line then .column // 1 else empty end)] | map(select(.) | tostring) | join(":"))
    + ": " + (if .expected then "expected \(.expected | join(" or "))" else refusal end);
