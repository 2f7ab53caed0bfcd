# Tests of ror.R: `Rscript r/test_ror.R`. The last line says how many passed and failed.

here <- dirname(normalizePath(sub("^--file=", "", grep("^--file=", commandArgs(FALSE), value = TRUE)[1])))
top <- dirname(here)
source(file.path(here, "ror.R"))

passed <- 0
failed <- 0

# counts a test, whose expression has to be TRUE
test <- function(name, expression) {
  good <- tryCatch(isTRUE(expression), error = function(error) {
    cat(name, ": ", conditionMessage(error), "\n", sep = "")
    FALSE
  })
  if (good) passed <<- passed + 1 else failed <<- failed + 1
  if (!good) cat("failed: ", name, "\n", sep = "")
}

# the condition that an expression raises, which has to be of this kind
raised <- function(kind, expression) {
  condition <- tryCatch({
    force(expression)
    NULL
  }, ror_error = identity)
  if (inherits(condition, paste0("ror_", kind, "_error"))) condition else stop("not raised: ", kind, ", but ", class(condition)[1])
}

raises <- function(kind, expression, ...) {
  wanted <- list(...)
  condition <- raised(kind, expression)
  all(vapply(names(wanted), function(name) identical(condition[[name]], wanted[[name]]), TRUE))
}

example <- function(name, table = "table.txt") {
  folder <- file.path(top, "examples", name)
  list(table = ror_table_read(file.path(folder, table), file.exists(file.path(folder, "options"))),
       session = ror_session_read(file.path(folder, "session.txt")), folder = folder)
}

replayed <- function(name, table = "table.txt", ...) {
  it <- example(name, table)
  ror_replay(it$table, it$session, ...)
}

# the report of an example as `replay-json` writes it
in_json <- function(name, table = "table.txt") {
  it <- example(name, table)
  ror_run(ror_run_of(it$table, it$session, NULL), "replay-json")$output
}

# the report with what a warning about refused lines says, or ""
warned <- function(expression) {
  told <- ""
  value <- withCallingHandlers(expression, ror_refused_warning = function(warning) {
    told <<- conditionMessage(warning)
    invokeRestart("muffleWarning")
  })
  list(value = value, told = told)
}

csv <- function(...) utils::read.csv(file.path(top, "examples", ...), colClasses = "character", na.strings = character())

# ---- examples

for (folder in list.dirs(file.path(top, "examples"), recursive = FALSE)) for (table in list.files(folder, "^table[.]")) {
  it <- example(basename(folder), table)
  report <- ror_replay(it$table, it$session)
  stored <- ror_read_bytes(file.path(folder, "report.txt"))
  line <- grep("^accepted [0-9]+ wide [0-9]+$", readLines(file.path(folder, "README.md")), value = TRUE)[1]
  test(paste(basename(folder), table, "report"), identical(report$plain, stored))
  test(paste(basename(folder), table, "counts"), identical(line, paste("accepted", report$accepted, "wide", report$wide)))
  test(paste(basename(folder), table, "check"), identical(ror_check(it$table, it$session, stored)$answers, report$answers))
  test(paste(basename(folder), table, "JSON"), identical(ror_check(it$table, it$session, in_json(basename(folder), table))$plain, stored))
  page <- readLines(file.path(folder, "standing.txt"), encoding = "UTF-8")
  wanted <- grep("^ +[0-9]+  .*  (line [0-9]+|the table's file)( [(].*[)])?$", page, value = TRUE)
  found <- do.call(rbind, lapply(unique(report$lines$desk), function(desk) ror_standing(report, desk = desk)))
  test(paste(basename(folder), table, "standing"), identical(as.integer(sub("^ +([0-9]+) .*", "\\1", wanted)), as.integer(found$number)))
}

report <- replayed("one-relation")
wanted <- csv("one-relation", "relation.csv")
for (line in c(5, 7)) {
  rows <- wanted[wanted$line == line, ]
  found <- ror_necessary(report, line)
  test(paste("the relation of line", line), identical(found$first, rows$from) && identical(found$second, rows$to))
}
test("a possible pair", nrow(ror_possible(report, 7)) == 12)

report <- replayed("twelve-firms")
wanted <- csv("twelve-firms", "classes.csv")
found <- ror_classes(report)
only <- ave(as.integer(found$possible == "yes"), found$line, found$alternative, FUN = sum) == 1
sign <- ifelse(found$necessary == "yes", ifelse(only, "#", "&"), ifelse(found$possible == "yes", "+", "."))
test("classes", identical(paste(found$line, found$alternative, found$class, sign),
                          paste(wanted$line, wanted$alternative, wanted$class, wanted$sign)))
test("ranges", identical(unlist(ror_class_ranges(report, 14)[1, c("lowest", "highest")], use.names = FALSE), c(2L, 4L)))

report <- replayed("five-cars")
wanted <- csv("five-cars", "functions-4.csv")
found <- ror_functions(report, 4)
test("functions", identical(paste(found$label, found$criterion, found$level, found$marginal, found$total),
                            paste(wanted$function., wanted$criterion, wanted$level, wanted$marginal, wanted$total)))
found <- ror_reasons(report, 6)
test("reasons", identical(found$number, c(1, 4)) && identical(found$said_in, c(1L, 5L)) &&
  identical(found$statement, c("prefer c10 c14", "stronger c01 c09 c10 c14")))
test("no reasons", nrow(ror_reasons(report, 4)) == 0)
weights <- ror_weights(ror_functions(report, 4))
test("weights", identical(weights$weight[weights$label == "necessary c01 c09 no"], c("6", "6", "0")) && identical(weights$total[4], "12"))
values <- ror_values(ror_functions(report, 4), example("five-cars")$table)
values <- values[values$label == "necessary c01 c09 no", ]
test("values", identical(values$alternative, c("c01", "c05", "c09", "c10", "c14")) && identical(values$value[c(1, 3)], c("6", "7")) &&
  identical(values$share[1], 0.5) && raises("table", ror_values(ror_functions(report, 4), example("six-vans")$table)) &&
  raises("table", ror_values(ror_functions(report, 4), ror_table(data.frame(price = 9900, row.names = "a"), c(price = "min")))))
long <- matrix(c("1", strrep("9", 39), "0", strrep("9", 39), "999", "0"), 2)
test("sums are exact", identical(ror_sums(long), c("1000", paste0("1", strrep("9", 38), "8"))))
table <- ror_table(data.frame(q = c("0.50", "1/3", "+02"), p = c("2", "3", "4"), row.names = letters[1:3]), c(q = "max", p = "min"), "q")
found <- ror_functions(ror_replay(table, ror_session("prefer c a", "ask consistent")), 2)
test("values of ratios", identical(nrow(ror_values(found, table)), 3L) && "17/29" %in% ror_performances(example("six-vans")$table, NULL))
test("no values over XMCDA", raises("table", ror_values(found, example("twelve-firms-in-xmcda", "table.xml")$table)))
table <- ror_table(data.frame(q = 1:2, row.names = c("a", "b")), c(q = "max"))
found <- ror_reasons(ror_replay(table, ror_session("prefer b a", "ask necessary b a", "undo", "prefer a b", "ask consistent")))
test("a reason without statements", identical(found$line, c(2L, 5L)) && identical(found$statement, c(NA, "prefer a b")))
test("certificates", identical(ror_text_lines(ror_certificates(report, 6))[2], "reduct 6 1 1 4"))

report <- replayed("six-flats")
found <- ror_repairs(report)
test("a repair", identical(found$line, 9L) && identical(found$number, 4) && identical(found$statement, "prefer bridge mill"))
test("what stands after it", identical(ror_standing(report, 9)$number, c(1, 2, 3, 5)))
test("what stands in the end", identical(ror_standing(report)$text[2], "atleast station castle"))
test("all reasons", identical(vapply(split(ror_reasons(report)$number, ror_reasons(report)$line), paste, "", collapse = " "),
  c(`7` = "1 2 4", `10` = "1 2", `11` = "1 2 5", `16` = "4", `17` = "4")))
folder <- file.path(top, "cases", "xmcda-opening-statements-repaired-in-a-replay")
report <- suppressWarnings(ror_replay(ror_table_read(file.path(folder, "table.xml")), ror_session_read(file.path(folder, "session.txt"))))
test("a repair of what a file brings", nrow(ror_repairs(report)) > 0 && !anyNA(ror_repairs(report)$statement))
report <- replayed("twenty-cars")
test("desks", identical(ror_standing(report, desk = "drivers")$text[4], "stronger c15 c11 c08 c05 on power"))

report <- replayed("twelve-firms-in-xmcda", "table.xml")
test("a file's statements", identical(ror_standing(report)$text[1], "prefer maple fir") && is.na(ror_standing(report)$line[1]))
sheet <- ror_sheet(example("twelve-firms-in-xmcda", "table.xml")$table)
test("a sheet", identical(sheet$levels$debt, c("80", "65", "50", "35")) && sheet$classes == 4 && length(sheet$alternatives) == 12)
sheet <- ror_sheet(example("six-vans")$table)
test("a linear criterion", identical(sheet$criteria$linear, c(TRUE, FALSE, FALSE)) &&
  identical(sheet$levels$load, c("0.5", "17/29", "0.6")))

it <- example("two-judges")
found <- ror_group(it$table, it$session)
both <- found[found$necessary_for_all == "yes", ]
test("a group", identical(paste(both$first, both$second), c("c05 c09", "c05 c10", "c09 c10", "c14 c09", "c14 c10")) &&
  identical(attr(found, "desks"), c("anna", "bert")) && attr(found, "accepted") == 80)
judges <- subset(attr(found, "judges"), first == "c05" & second == "c14")
test("its judges", identical(judges$desk, c("anna", "bert")) && identical(judges$necessary, c("no", "yes")) &&
  identical(judges$possible, c("no", "yes")) && all(subset(attr(found, "judges"), first == "c01")$necessary == "no") &&
  all(subset(attr(found, "judges"), first == "c01")$possible == "yes"))
test("nobody", all(ror_group(it$table, ror_session())$necessary_for_all == "yes"))
it <- example("one-function")
found <- ror_discriminate(it$table, it$session)[[1]]
test("a most discriminating function", identical(found$margin, "1/6") &&
  identical(found$marginals$marginal, c("0", "0", "0", "2", "3", "0", "2", "2", "3", "3", "0", "0", "0")))
table <- ror_table(data.frame(q = c("1/3", "1/2", "3/4"), row.names = c("a", "b", "c")), c(q = "max"), linear = "q")
found <- ror_discriminate(table, ror_session(ror_prefer(c("c", "b"), c("b", "a"))))[[1]]
test("a function on a linear criterion", identical(found$margin, "2/5") && identical(found$marginals$marginal, c("0", "2", "5")))
it <- example("three-levels")
found <- ror_levels(it$table, it$session, 3, c("3" = 2, "4" = 2, "5" = 3))
row <- found[found$first == "c05" & found$second == "c10", ]
test("levels", row$necessary == 2 && row$possible == 3 && row$contradictory == 4 && nrow(found) == 20)
test("a generated session", identical(ror_generate(7)$accepted, 2209))

# ---- sessions and tables

lines <- c(
  ror_prefer("a", "b"), ror_atleast("a", "b"), ror_same("a", "b"), ror_stronger("a", "b", "c", "d"),
  ror_asstrong("a", "b", "c", "d", on = "q"), ror_equal("a", "b", "c", "d"), ror_assign("a", 2), ror_assign("a", 1, 2), ror_withdraw(3),
  ror_replace(2, ror_stronger("a", "b", "c", "d", on = "q")), ror_repair(), ror_undo(), ror_ask_consistent(),
  ror_ask_necessary("a", "b"), ror_ask_necessary("a", "b", "c", "d", on = "q"), ror_ask_possible("a", "b", desk = "anna"),
  ror_ask_possible("a", "b", "c", "d"), ror_ask_relation("anna"), ror_ask_classes("a"), ror_ask_possible_class("a", 1),
  ror_ask_necessary_class("a", 2), ror_prefer(c("a", "b"), c("b", "c")))
test("each function writes its line", identical(lines, c(
  "prefer a b", "atleast a b", "same a b", "stronger a b c d", "asstrong a b c d on q", "equal a b c d", "class a 2 2", "class a 1 2",
  "withdraw 3", "replace 2 stronger a b c d on q", "repair", "undo", "ask consistent", "ask necessary a b",
  "ask necessary a b c d on q", "@anna ask possible a b", "ask possible a b c d", "@anna ask relation", "ask classes a",
  "ask possible-class a 1", "ask necessary-class a 2", "prefer a b", "prefer b c")))
table <- ror_table(data.frame(id = c("a", "b", "c", "d"), q = 1:4), c(q = "max"), classes = 2, id = "id")
test("and none is refused", nrow(ror_refused(ror_replay(table, ror_session(lines)))) == 0)

for (name in list("Fiat 500", "a\tb", "a\n", "a\nundo", "", "#a", "@a", strrep("x", 65), strrep("\u00e9", 33), "a\177", NA_character_, 7,
                  "\xff")) {
  test(paste("no name:", encodeString(as.character(name))), raises("session", ror_prefer(name, "b"), word = "BadLine") &&
    raises("session", ror_stronger("a", "b", "c", "d", on = name)))
}
test("no number", raises("session", ror_withdraw(1.5)) && raises("session", ror_withdraw("1")) && raises("session", ror_withdraw(1e9)))
test("no statement", raises("session", ror_replace(1, "ask relation")) &&
  raises("session", ror_replace(1, ror_prefer("a", "b", desk = "x"))))
test("no question", raises("session", ror_ask_necessary("a", "b", "c")) && raises("session", ror_ask_necessary("a", "b", on = "q")))
test("no line", raises("session", ror_session("prefer a b\nundo")) && raises("session", ror_session(7)) &&
  raises("session", ror_session("\xff")))
test("no names for a line", raises("session", ror_prefer(character(), "b")) &&
  raises("session", ror_prefer(c("a", "b", "c"), c("b", "a"))) &&
  raises("session", ror_ask_necessary("a", "b", character(), character())) && raises("session", ror_withdraw(numeric())))
test("no desk", raises("session", ror_undo(desk = "a b")))

given <- c("0.1", "0.10", "1/10", "+01/010", ror_decimal(0.1))
table <- ror_table(data.frame(q = given, row.names = letters[1:5]), c(q = "max"))
test("amounts are exact", identical(ror_sheet(table)$levels$q, "0.1"))
test("doubles are their shortest decimals", identical(ror_decimal(c(1e5, 0.1 + 0.2, -0.5, 1e-7, 123.25, 9900, 0, 1e16, 2/3)),
  c("100000", "0.30000000000000004", "-0.5", "0.0000001", "123.25", "9900", "0", "10000000000000000", "0.6666666666666666")))
for (amount in list("3,5", "1e5", "", " 1", "1.", ".5", "1/0", "1 2", "1\n", 1e18, 1e-20, NaN, Inf, NA_real_, NA_character_, NA,
                    as.Date("2020-01-01"))) {
  row <- data.frame(q = amount, row.names = "a")
  test(paste("no amount:", encodeString(format(amount))), raises("table", ror_table(row, c(q = "max")), word = "BadNumber"))
}
frame <- data.frame(q = 1:2, row.names = c("a", "b"))
test("faults of a table", raises("table", ror_table(frame, c(q = "more")), word = "BadLine") &&
  raises("table", ror_table(frame, c(p = "max")), word = "MissingPerformance") &&
  raises("table", ror_table(frame, c(q = "max"), linear = "p")) &&
  raises("table", ror_table(data.frame(q = 1:2, id = "a"), c(q = "max"), id = "id"), word = "RepeatedId") &&
  raises("table", ror_table(data.frame(q = 1, row.names = "a b"), c(q = "max")), word = "BadLine") &&
  raises("table", ror_table(frame, "max")))

names <- c("on", "undo", "a,b\"c", "--", "\u00e9\u0085x", "p\u2028q", "NA", "\ufeffz", strrep("L", 64), "\"", "=1+2", "it's", "\\n",
           "a\u00a0b", "<&>", "\U0001f697", "yes", "wide", "|", "$x", "`x`", "%s")
criteria <- c("on", "q,\"r", "\u00a0", "NA")
frame <- data.frame(names, seq_along(names), -seq_along(names), seq_along(names) %% 3, 1L)
names(frame) <- c("id", criteria)
table <- ror_table(frame, structure(rep("max", 4), names = criteria), classes = 2, id = "id")
same <- function(a, b) !anyNA(a) && identical(lapply(enc2utf8(a), charToRaw), lapply(enc2utf8(b), charToRaw))
session <- ror_session(ror_assign("NA", 1, 2, desk = "a,b\"c"), ror_ask_relation("a,b\"c"), ror_ask_classes("NA", desk = "a,b\"c"),
                       ror_asstrong("on", "undo", "on", "undo", on = "on", desk = "a,b\"c"))
report <- ror_replay(table, session)
test("hostile names in a relation", same(unique(ror_relation(report)$first), names) && nrow(ror_refused(report)) == 0)
test("hostile names in functions", same(unique(ror_functions(report, 2)$criterion), criteria))
test("hostile names on the sheet", same(ror_sheet(table)$alternatives, names))
test("hostile names in both forms", identical(ror_check(table, session, report$plain)$answers, report$answers) &&
  identical(ror_check(table, session, ror_run(report$run, "replay-json")$output)$plain, report$plain))
test("hostile names in values", same(unique(ror_values(ror_functions(report, 2), table)$alternative), names))
test("hostile names at desks", same(ror_standing(report, desk = "a,b\"c")$text, c("class NA 1 2", "asstrong on undo on undo on on")))

options(OutDec = ",")
test("doubles in a German session", identical(ror_decimal(c(0.1, 2.5, 1e-7)), c("0.1", "2.5", "0.0000001")))
options(OutDec = ".")
frame <- data.frame(name = c("a", "b"), q = 1:2)
test("no names are guessed", raises("table", ror_table(frame, c(q = "max")), word = "BadLine"))
table <- ror_table(frame, c(q = "max"), id = "name")
session <- function(text) structure(list(bytes = text), class = "ror_session")
crlf <- session(c(charToRaw("# \u00e9 a"), as.raw(0), charToRaw("b\rc\r\nprefer b a\r\nask relation")))
test("lines of a CRLF session", identical(ror_session_lines(crlf), c("# \u00e9 a?b\rc", "prefer b a", "ask relation")) &&
  same(ror_session_lines(ror_session(ror_session_lines(session(charToRaw("# \u00e9\r\n"))), "undo")), c("# \u00e9", "undo")))
test("a session with odd comments", identical(ror_discriminate(table, crlf)[[1]]$margin, "1/1") &&
  identical(ror_relation(ror_replay(table, crlf))$necessary, c("no", "yes")))
long <- session(charToRaw(paste0(strrep("#\n", 99998), "prefer b a\nask relation")))
test("a session of 100,000 lines", identical(ror_discriminate(table, long)[[1]]$margin, "1/1") &&
  identical(ror_check(table, long, ror_run(ror_run_of(table, long, NULL), "replay-json")$output)$lines$number, c(99999L, 100000L)))
table <- ror_table(data.frame(q = 1:2, row.names = c("\u00e9", "b")), c(q = "max"))
test("a name with an accent", identical(ror_discriminate(table, ror_session(ror_prefer("b", "\u00e9")))[[1]]$margin, "1/1"))

# ---- faults

cars <- example("five-cars")
path <- tempfile()
writeLines(c("ror-table 1", "criterion q max", "alternative a 3,5"), path)
bad <- raised("table", ror_replay(ror_table_read(path), cars$session))
test("a bad table", bad$status == 3 && bad$word == "BadNumber" && bad$line == 3 && bad$said == "bad table: BadNumber line 3" &&
  grepl("a comma in a number", bad$advice) && grepl("a comma in a number", conditionMessage(bad)))
bad <- raised("session", ror_replay(cars$table, ror_session("prefer c01 c05", "prefer c01")))
test("a bad session", bad$status == 4 && bad$word == "BadLine" && bad$line == 2 && grepl("a name is missing", bad$advice))
stored <- readLines(file.path(cars$folder, "report.txt"))
forged <- ror_bytes(sub("answer necessary c01 c09 yes", "answer necessary c01 c09 no", stored))
bad <- raised("report", ror_check(cars$table, cars$session, forged))
test("a forged report", bad$status == 5 && bad$word == "answer 1 WrongVerdict" && is.na(bad$line) && bad$block == 6 && nzchar(bad$advice))
test("no report", raises("report", ror_check(cars$table, cars$session, raw()), word = "BadLine", line = 1L) &&
  raises("report", ror_check(cars$table, cars$session, charToRaw("{")), word = "BadJson"))
flats <- example("six-flats")
test("an unsuited session", raises("unsuited", ror_group(flats$table, flats$session), status = 10L, line = 9L))
it <- example("three-levels")
test("bad levels", raises("levels", ror_levels(it$table, it$session, 2, c("9" = 1)), status = 11L, word = "UnknownStatement") &&
  raises("levels", ror_levels(it$table, it$session, 2.5)) && raises("levels", ror_levels(it$table, it$session, 2, 1)))
bad <- raised("usage", ror_replay(cars$table, cars$session, bits = 16))
test("a width", grepl("15, 31, 63 or 127: 16", conditionMessage(bad), fixed = TRUE))
test("other calls", raises("usage", ror_generate(-1)) && raises("file", ror_table_read(tempdir())) &&
  raises("file", ror_check(cars$table, cars$session, "none")) &&
  raises("table", ror_replay("table.txt", cars$session)) && raises("session", ror_replay(cars$table, "prefer a b")) &&
  raises("file", ror_table_read("none")) && raises("program", ror_replay(cars$table, cars$session, program = file.path(top, "README.md"))))
found <- warned(ror_replay(cars$table, ror_session("prefer c01 c99", "ask relation", "ask classes c01", "undo")))
test("refused lines are a warning", grepl("1 (UnknownAlternative), 3 (UnknownClass), 4 (NothingToUndo)", found$told, fixed = TRUE))
report <- found$value
test("a report shows how many", identical(capture.output(print(report)), "ror report, accepted 40 wide 0 refused 3"))
session <- ror_session("prefer c01 c05", "prefer c01 c99", "ask classes c99", "prefer c05 c09")
for (call in list(ror_group, ror_discriminate, function(...) ror_levels(..., count = 2))) {
  test("other commands tell of refused lines", grepl(": 2 [(]UnknownAlternative[)]$", warned(call(cars$table, session))$told))
  test("and of no others", identical(warned(call(cars$table, ror_session("prefer c01 c05", "ask classes c99")))$told, ""))
}
test("refused lines", identical(ror_refused(report)$refusal, c("UnknownAlternative", "UnknownClass", "NothingToUndo")) &&
  raises("no_answer", ror_classes(report, 3), word = "UnknownClass", line = 3L))
report <- replayed("one-relation")
test("what was not asked", raises("no_answer", ror_relation(report)) && raises("no_answer", ror_relation(report, 1)) &&
  raises("no_answer", ror_functions(report, 99)) && raises("no_answer", ror_standing(report, desk = "x")))
folder <- tempfile()
dir.create(folder)
refuse <- function(command) {
  for (name in c("ror", "show")) {
    path <- file.path(folder, if (name == "ror") "ror" else "ror_show")
    text <- c("#!/bin/sh", paste0("case $1 in ", command, ") echo 'rejected: block 1 WrongBlock' >&2; exit 5 ;; esac"),
              paste0("exec '", ror_programs()[[name]], "' \"$@\""))
    writeLines(text, path)
    Sys.chmod(path, "755")
  }
}
refuse("*-json")
report <- ror_replay(cars$table, cars$session, program = folder)
test("no JSON is needed", identical(ror_check(cars$table, cars$session, report$plain, program = folder)$answers, report$answers))
json <- in_json("five-cars")
judges <- example("two-judges")
one <- example("one-function")
sure <- example("three-levels")
refuse("check-json")
test("JSON that is rejected", raises("report", ror_check(cars$table, cars$session, json, program = folder)))
refuse("check")
test("a replay that is rejected", raises("report", ror_replay(cars$table, cars$session, program = folder)))
test("a check that is rejected", raises("report", ror_check(cars$table, cars$session, report$plain, program = folder)) &&
  raises("report", ror_check(cars$table, cars$session, json, program = folder)))
twice <- charToRaw(gsub('"verdict":"no"', '"verdict":"yes","verdict":"no"', rawToChar(json), fixed = TRUE))
test("of two equal keys the last one counts", !identical(twice, json) &&
  identical(ror_check(cars$table, cars$session, twice)$answers, ror_replay(cars$table, cars$session)$answers))
refuse("check-why")
test("reasons that are rejected", raises("report", ror_reasons(report, 6)))
refuse("check-*")
test("others that are rejected", raises("report", ror_group(judges$table, judges$session, program = folder)) &&
  raises("report", ror_discriminate(one$table, one$session, program = folder)) &&
  raises("report", ror_levels(sure$table, sure$session, 3, program = folder)))
for (script in c("kill -9 $$", "echo nonsense", "exec sleep 60")) {
  writeLines(c("#!/bin/sh", script), file.path(folder, "ror"))
  options(ror.timeout = if (script == "exec sleep 60") 1)
  test(paste("a program that does", script), raises("program", ror_generate(7, program = folder)) &&
    (script == "echo nonsense" || raises("program", ror_replay(cars$table, cars$session, program = folder))))
}
options(ror.timeout = NULL)
report <- ror_replay(cars$table, ror_session("prefer c01 c05", "prefer c05 c01", "ask relation"))
test("a contradiction", all(ror_relation(report)$necessary == "contradiction") && raises("contradiction", ror_necessary(report)))
folder <- file.path(top, "cases", "check-json-of-each-body-and-verdict")
table <- ror_table_read(file.path(folder, "table.txt"))
session <- ror_session_read(file.path(folder, "session.txt"))
report <- suppressWarnings(ror_check(table, session, file.path(folder, "report.json")))
test("wide answers", report$status == 9 && report$accepted == 3 && report$wide == 2 && "repair-wide" %in% report$lines$outcome &&
  identical(suppressWarnings(ror_check(table, session, report$plain))$answers, report$answers))
folder <- file.path(top, "cases", "group-at-15-bits-with-wide-answers")
table <- ror_table_read(file.path(folder, "table.txt"))
session <- ror_session_read(file.path(folder, "session.txt"))
test("a wide group", "wide" %in% ror_group(table, session, bits = 15)$necessary_for_all)
found <- ror_levels(table, ror_session(ror_session_lines(session)[1:2]), 2, bits = 15)
test("wide levels", any(!is.na(found$wide)) && identical(is.na(found$wide), !is.na(found$necessary)))
report <- ror_replay(table, ror_session("@x prefer a b", "@x prefer c d", "@x ask relation"), bits = 15)
test("a wide relation", raises("wide", ror_necessary(report), status = 9L))

# ---- the page "In R", whose blocks run as written

page <- readLines(file.path(top, "docs", "r.md"))
fences <- which(startsWith(page, "```"))
before <- setwd(top)
printed <- character()
for (place in seq(1, length(fences), 2)) {
  text <- page[seq_len(fences[place + 1] - fences[place] - 1) + fences[place]]
  kind <- page[fences[place]]
  if (kind == "```r") printed <- capture.output(source(exprs = parse(text = text), echo = FALSE, print.eval = TRUE))
  if (kind == "```") test(paste("the page's output in line", fences[place]), identical(printed, text))
}
setwd(before)

cat(passed, " passed, ", failed, " failed\n", sep = "")
if (failed > 0) quit(status = 1)
