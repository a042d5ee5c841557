# Makes one document of SARIF 2.1.0 from the objects that `rl_scan --json` prints with `--bad`, `--invisible` or `--check`:
#     rl_scan --generate sarif-jq > sarif.jq
#     rl_scan --json --bad src | jq -s -f sarif.jq
# Columns are counted in characters. The object of `--stats` is left out. For standard input the path is `-`.
# Two arguments add what the objects don't contain. `--arg version "$(rl_scan -V)"` is the program's version. `--arg status N` is its exit
# status; without it the document has no invocation:
#     rl_scan --json --bad src > found; jq -s --arg status $? --arg version "$(rl_scan -V)" -f sarif.jq found
def uri:
  sub("^(\\./+)+"; "") | split("/") | map(@uri) | join("/") | if startswith("/") then "file://" + . else . end;
def rule: if has("new") then .rules[0] // "style" else .id end;
def description: if has("hidden") then (.id | gsub("-"; " ")) elif has("new") then "rule of a style: \(rule)" else .error end;
def message:
  if has("hidden") then .hidden
  elif has("new") then "\(.text) -> \(.new)"
  elif has("piece") and .piece != "" then "\(.error): \(.piece)"
  elif has("error") then .error
  else error("an object of none of --bad, --invisible and --check") end;
def result:
  {ruleId: rule, level: "error", message: {text: message}, locations: [{physicalLocation: {
    artifactLocation: {uri: ((.path // "-") | uri)},
    region: {startLine: .line, startColumn: .column, endLine: .end_line, endColumn: .end_column}}}]};
def rules: group_by(rule) | map({id: (.[0] | rule), shortDescription: {text: (.[0] | description)}});
def driver: {name: "rl_scan"} + ($ARGS.named.version | if . then {version: split(" ")[-1]} else {} end);
def invocations:
  $ARGS.named.status | if . then {invocations: [tonumber | {executionSuccessful: (. < 2), exitCode: .}]} else {} end;
map(select(has("files_with_findings") | not))
| {version: "2.1.0", "$schema": "https://json.schemastore.org/sarif-2.1.0.json", runs: [
    {tool: {driver: (driver + {rules: rules})}, columnKind: "unicodeCodePoints", results: map(result)} + invocations]}
