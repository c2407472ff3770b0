// Lays out JavaScript as the language service of TypeScript does: layout.js TYPESCRIPT FILE... TYPESCRIPT is the folder
// of the package. It prints a list with the text of each file. It breaks no lines.
"use strict";
const { readFileSync } = require("node:fs");
const ts = require(process.argv[2]);

const SETTINGS = {
  ...ts.getDefaultFormatCodeSettings("\n"),
  indentSize: 2,
  tabSize: 2,
  convertTabsToSpaces: true,
  insertSpaceAfterFunctionKeywordForAnonymousFunctions: true,
  insertSpaceAfterOpeningAndBeforeClosingNonemptyBraces: true,
  insertSpaceAfterOpeningAndBeforeClosingEmptyBraces: false,
};

function laidOut(path) {
  const text = readFileSync(path, "utf8");
  const service = ts.createLanguageService({
    getCompilationSettings: () => ({ allowJs: true }),
    getCurrentDirectory: () => "/",
    getDefaultLibFileName: () => "",
    getScriptFileNames: () => [path],
    getScriptSnapshot: () => ts.ScriptSnapshot.fromString(text),
    getScriptVersion: () => "1",
  });
  // In types, a semicolon in front of a brace is a matter of taste.
  const semicolons = path.endsWith(".js") ? ts.SemicolonPreference.Insert : ts.SemicolonPreference.Ignore;
  const edits = service.getFormattingEditsForDocument(path, { ...SETTINGS, semicolons });
  return edits.sort((one, other) => other.span.start - one.span.start).reduce((made, { span, newText }) => (
    made.slice(0, span.start) + newText + made.slice(span.start + span.length)
  ), text);
}

console.log(JSON.stringify(process.argv.slice(3).map(laidOut)));
