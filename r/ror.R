# Robust ordinal regression in R, by the proved programs `ror` and `ror_show`. Only reports in JSON need a package, jsonlite.
#
#   source("r/ror.R")
#   table <- ror_table(data.frame(price = c(9900, 12400), power = c(50, 66), row.names = c("a", "b")),
#                      c(price = "min", power = "max"))
#   report <- ror_replay(table, ror_session(ror_prefer("a", "b"), ror_ask_relation()))
#   ror_relation(report)
#
# The programs are proved. This file is not: it is tested. It writes the texts that the programs read, calls `check` on every report
# before it shows anything of it, and reads the values out of what was accepted. Names of alternatives and criteria are the ids of the
# table. Numbers of value functions are texts, since doubles would lose digits; `ror_number` makes doubles of them.
#
# The programs are found in this order: the argument `program` (the path of `ror`; `ror_show` stands beside it), the environment
# variable ROR (and ROR_SHOW), the folder above this file, and the search path. They run on x86-64 Linux. A call is ended after
# `options(ror.timeout = SECONDS)`, if that is set.
#
# What goes wrong is a condition of the class `ror_error` and of one of its own: `ror_table_error`, `ror_session_error`,
# `ror_unsuited_error`, `ror_levels_error`, `ror_report_error`, `ror_file_error`, `ror_output_error`, `ror_memory_error`,
# `ror_usage_error`, `ror_program_error`, `ror_no_answer_error`, `ror_contradiction_error`, `ror_wide_error`. It has the program's
# `status`, the line that it `said`, the `word` of the fault, the `line` of the file, the `block` of a report, and `advice`; NA or ""
# where there is none. Where lines of a session were refused there is a warning, a `ror_refused_warning`.

# ---- errors

ror_stop <- function(kind, message, status = NA_integer_, said = "", word = "", line = NA_integer_, advice = "", block = NA_integer_) {
  text <- if (nzchar(advice)) paste0(message, "\n", advice) else message
  stop(structure(
    class = c(paste0("ror_", kind, "_error"), "ror_error", "error", "condition"),
    list(message = text, call = NULL, status = status, said = said, word = word, line = line, advice = advice, block = block)
  ))
}

# raises what a status other than 0 and 9 says
ror_stop_by_status <- function(status, errors, advice) {
  said <- if (length(errors) > 0) errors[1] else ""
  kinds <- c("2" = "usage", "3" = "table", "4" = "session", "5" = "report", "6" = "file", "7" = "output", "8" = "memory",
             "10" = "unsuited", "11" = "levels")
  kind <- kinds[as.character(status)]
  message <- if (nzchar(said)) said else if (status > 128) paste("a signal ended the program:", status - 128) else paste("status", status)
  if (is.na(kind)) ror_stop("program", if (length(errors) > 0) paste(errors, collapse = "\n") else message, status, said)
  word <- sub("^(bad [a-z]+|rejected|unsuited session): ", "", said, useBytes = TRUE)
  block <- NA_integer_
  if (grepl("^block [0-9]+ ", word, useBytes = TRUE)) block <- as.integer(sub("^block ([0-9]+) .*$", "\\1", word, useBytes = TRUE))
  word <- sub("^(block|certificate) [0-9]+ ", "", word, useBytes = TRUE)
  numbered <- regmatches(word, regexec("^(.*?) ?(line |(?<=BadLine )|(?<=BadNumber ))([0-9]+)$", word, perl = TRUE))[[1]]
  line <- NA_integer_
  if (length(numbered) > 0) {
    line <- as.integer(numbered[4])
    word <- numbered[2]
  }
  if (kind == "unsuited") word <- "Unsuited"
  ror_stop(unname(kind), message, status, said, if (kind == "usage") "" else word, line, advice, block)
}

# ---- names and numbers

# texts in UTF-8, or NA where there is no such form; bytes of which R knows no encoding are UTF-8, unless the locale says Latin-1
ror_utf8 <- function(texts) {
  texts <- as.character(texts)
  raw <- Encoding(texts) == "unknown" & !l10n_info()[["Latin-1"]]
  known <- Encoding(texts) != "bytes"
  made <- rep(NA_character_, length(texts))
  made[known & !raw] <- enc2utf8(texts[known & !raw])
  made[raw] <- texts[raw]
  Encoding(made) <- "UTF-8"
  made[!validUTF8(made)] <- NA
  made
}

ror_name_fault <- function(names) {
  if (!is.character(names) && !is.factor(names)) return("is no text")
  if (length(names) == 0) return("is missing")
  if (anyNA(names)) return("is NA")
  names <- ror_utf8(names)
  if (anyNA(names)) return("has no form in UTF-8")
  if (any(!nzchar(names))) return("is empty")
  if (any(nchar(names, "bytes") > 64)) return("has more than 64 bytes")
  if (any(grepl("[\001-\040\177]", names, useBytes = TRUE))) return("has a blank or a control character in it")
  NULL
}

ror_names <- function(names, kind = "session") {
  fault <- ror_name_fault(names)
  if (is.null(fault) && any(grepl("^[@#]", names, useBytes = TRUE))) fault <- "begins with @ or #"
  if (!is.null(fault)) ror_stop(kind, paste0("a name ", fault, ": ", paste(names, collapse = " ")), word = "BadLine")
  ror_utf8(names)
}

ror_count <- function(number, kind = "session") {
  good <- is.numeric(number) && length(number) > 0 && !anyNA(number) && all(number >= 0 & number <= 999999999 & number == floor(number))
  if (!good) ror_stop(kind, paste("no number from 0 to 999999999:", paste(number, collapse = " ")), word = "BadLine")
  format(number, scientific = FALSE, trim = TRUE)
}

# the shortest decimal that is read back as this double, without an exponent
ror_decimal <- function(number) {
  vapply(number, function(one) {
    if (!is.finite(one)) return("NA")
    for (digits in 1:17) {
      word <- sprintf("%.*e", digits - 1L, one)
      if (as.numeric(word) == one) break
    }
    parts <- regmatches(word, regexec("^(-?)([0-9])\\.?([0-9]*)e([+-][0-9]+)$", word))[[1]]
    digits <- paste0(parts[3], parts[4])
    point <- 1 + as.integer(parts[5])
    if (point <= 0) digits <- paste0(strrep("0", 1 - point), digits)
    if (point <= 0) point <- 1
    if (point > nchar(digits)) digits <- paste0(digits, strrep("0", point - nchar(digits)))
    behind <- substr(digits, point + 1, nchar(digits))
    paste0(parts[2], substr(digits, 1, point), if (nzchar(behind)) paste0(".", behind))
  }, "")
}

# the words of performances: integers and texts as they are, doubles as their shortest decimals
ror_amounts <- function(column, criterion) {
  words <- if (is.factor(column) || inherits(column, "integer64")) as.character(column)
    else if (is.character(column)) column
    else if (is.integer(column)) format(column, scientific = FALSE, trim = TRUE)
    else if (is.double(column) && !is.object(column)) ror_decimal(column)
    else ror_stop("table", paste0("no performances on ", criterion, ": ", class(column)[1]), word = "BadNumber")
  good <- grepl("^[+-]?[0-9]+([.][0-9]+|/[0-9]+)?$", words, useBytes = TRUE) & !grepl("/0+$", words, useBytes = TRUE)
  parts <- strsplit(ifelse(good, words, "0"), "/", fixed = TRUE)
  short <- vapply(parts, function(it) all(nchar(gsub("[^0-9]", "", it)) <= 18), TRUE)
  bad <- which(!good | !short)
  if (length(bad) > 0) {
    ror_stop("table", paste0("no performance on ", criterion, ": ", words[bad[1]],
      " (a whole number, a decimal with a point or a ratio, of at most 18 digits)"), word = "BadNumber")
  }
  words
}

# doubles of texts such as "12", "0.5" or "1/3", rounded where they have to be
ror_number <- function(words) {
  parts <- strsplit(as.character(words), "/", fixed = TRUE)
  vapply(parts, function(it) as.numeric(it[1]) / if (length(it) == 2) as.numeric(it[2]) else 1, 0)
}

# ---- tables

# A table from a data frame: a row for each alternative, named by the rows or by the column `id`, and a column for each criterion.
# `directions` is a named vector of "max" or "min" in the order of the criteria; `linear` names those that are linear. Integers and
# texts ("3.5", "1/3") are kept exactly. A double is taken as the shortest decimal that is read back as it: 0.1 is one tenth.
ror_table <- function(frame, directions, linear = character(), classes = 0, id = NULL) {
  criteria <- ror_names(names(directions), "table")
  if (anyDuplicated(criteria)) ror_stop("table", "two criteria have one name", word = "RepeatedId")
  if (!all(directions %in% c("max", "min"))) ror_stop("table", "a direction is max or min", word = "BadLine")
  if (!all(linear %in% criteria)) ror_stop("table", "linear names no criterion", word = "BadLine")
  lacking <- setdiff(c(criteria, id), names(frame))
  if (length(lacking) > 0) ror_stop("table", paste("the data frame has no column", lacking[1]), word = "MissingPerformance")
  if (is.null(id) && is.integer(attr(frame, "row.names"))) {
    ror_stop("table", "the rows have no names: say by `id` which column has them", word = "BadLine")
  }
  names <- ror_names(if (is.null(id)) rownames(frame) else frame[[id]], "table")
  if (anyDuplicated(names)) ror_stop("table", paste("two alternatives have the name", names[anyDuplicated(names)]), word = "RepeatedId")
  words <- lapply(criteria, function(it) ror_amounts(frame[[it]], it))
  lines <- c("ror-table 3", paste0("criterion ", criteria, " ", directions, ifelse(criteria %in% linear, " linear", "")))
  if (!identical(ror_count(classes, "table"), "0")) lines <- c(lines, paste("classes", ror_count(classes, "table")))
  if (length(names) > 0) lines <- c(lines, do.call(paste, c(list("alternative", names), words)))
  ror_table_of(ror_bytes(lines), FALSE)
}

# A table from a file, plain or in XMCDA 2, whose bytes are kept as they are. `best_first` says that the ranks of the categories in
# XMCDA begin with the best one.
ror_table_read <- function(path, best_first = FALSE) ror_table_of(ror_read_bytes(path), best_first)

ror_table_of <- function(bytes, best_first) {
  front <- if (identical(utils::head(bytes, 3), as.raw(c(0xef, 0xbb, 0xbf)))) bytes[-(1:3)] else bytes
  structure(list(bytes = bytes, best_first = best_first, xmcda = ror_first_byte(front) == as.raw(60)), class = "ror_table")
}

# the first byte that is no white space, or 0
ror_first_byte <- function(bytes) {
  for (byte in bytes) if (!byte %in% as.raw(c(32, 9, 13, 10))) return(byte)
  as.raw(0)
}

ror_bytes <- function(lines) charToRaw(paste0(enc2utf8(lines), "\n", collapse = ""))

ror_read_bytes <- function(path) {
  tryCatch({
    stopifnot(file.exists(path), !dir.exists(path))
    suppressWarnings(readBin(path, "raw", file.size(path)))
  }, error = function(error) ror_stop("file", paste("the file can't be read:", path)))
}

print.ror_table <- function(x, ...) {
  cat(if (x$xmcda) "ror table in XMCDA, " else "plain ror table, ", length(x$bytes), " bytes\n", sep = "")
  invisible(x)
}

# ---- sessions: each function gives lines, one for each of the names; `desk` is the judge's name

ror_line <- function(desk, ...) {
  line <- ror_paste(...)
  if (identical(desk, "")) return(line)
  fault <- ror_name_fault(desk)
  if (!is.null(fault)) ror_stop("session", paste0("the name of a desk ", fault), word = "BadLine")
  ror_paste(paste0("@", ror_utf8(desk)), line)
}

# the words of lines, each one alone or one for each line
ror_paste <- function(...) {
  sizes <- lengths(list(...))
  if (!all(sizes %in% c(1L, max(sizes)))) ror_stop("session", "names of different numbers don't make lines", word = "BadLine")
  paste(...)
}

ror_pair <- function(form, a, b) ror_paste(form, ror_names(a), ror_names(b))

ror_strength <- function(form, a, b, c, d, on) {
  line <- ror_paste(form, ror_names(a), ror_names(b), ror_names(c), ror_names(d))
  if (is.null(on)) line else ror_paste(line, "on", ror_names(on))
}

# a is worth more than b, at least as much, as much
ror_prefer <- function(a, b, desk = "") ror_line(desk, ror_pair("prefer", a, b))
ror_atleast <- function(a, b, desk = "") ror_line(desk, ror_pair("atleast", a, b))
ror_same <- function(a, b, desk = "") ror_line(desk, ror_pair("same", a, b))

# a is preferred to b more strongly than c to d, at least as strongly, as strongly; over all criteria or on one
ror_stronger <- function(a, b, c, d, on = NULL, desk = "") ror_line(desk, ror_strength("stronger", a, b, c, d, on))
ror_asstrong <- function(a, b, c, d, on = NULL, desk = "") ror_line(desk, ror_strength("asstrong", a, b, c, d, on))
ror_equal <- function(a, b, c, d, on = NULL, desk = "") ror_line(desk, ror_strength("equal", a, b, c, d, on))

# a belongs to one of the classes from lowest to highest; class 1 is the worst
ror_assign <- function(a, lowest, highest = lowest, desk = "") {
  ror_line(desk, ror_paste("class", ror_names(a), ror_count(lowest), ror_count(highest)))
}

# takes statement `number` back; puts a statement in its place, as in ror_replace(2, ror_atleast("a", "b"))
ror_withdraw <- function(number, desk = "") ror_line(desk, paste("withdraw", ror_count(number)))
ror_replace <- function(number, statement, desk = "") {
  if (!all(grepl("^(prefer|atleast|same|stronger|asstrong|equal|class) ", statement, useBytes = TRUE))) {
    ror_stop("session", paste("no statement, or one with a desk:", statement[1]), word = "BadLine")
  }
  ror_line(desk, ror_paste("replace", ror_count(number), statement))
}

# withdraws each statement that contradicts those kept before it; takes the desk's last change back
ror_repair <- function(desk = "") ror_line(desk, "repair")
ror_undo <- function(desk = "") ror_line(desk, "undo")

# questions: does some function agree; is a worth at least as much as b (or preferred to b at least as strongly as c to d) by all, by some
ror_ask_consistent <- function(desk = "") ror_line(desk, "ask consistent")
ror_ask_necessary <- function(a, b, c = NULL, d = NULL, on = NULL, desk = "") ror_line(desk, ror_ask("necessary", a, b, c, d, on))
ror_ask_possible <- function(a, b, c = NULL, d = NULL, on = NULL, desk = "") ror_line(desk, ror_ask("possible", a, b, c, d, on))

ror_ask <- function(kind, a, b, c, d, on) {
  form <- paste("ask", kind)
  if (is.null(c) != is.null(d)) ror_stop("session", "c and d go together", word = "BadLine")
  if (!is.null(c)) return(ror_strength(form, a, b, c, d, on))
  if (!is.null(on)) ror_stop("session", "on one criterion only strengths are compared", word = "BadLine")
  ror_pair(form, a, b)
}

# both of each ordered pair; the classes of a; one class of it
ror_ask_relation <- function(desk = "") ror_line(desk, "ask relation")
ror_ask_classes <- function(a, desk = "") ror_line(desk, paste("ask classes", ror_names(a)))
ror_ask_possible_class <- function(a, number, desk = "") ror_line(desk, ror_paste("ask possible-class", ror_names(a), ror_count(number)))
ror_ask_necessary_class <- function(a, number, desk = "") ror_line(desk, ror_paste("ask necessary-class", ror_names(a), ror_count(number)))

# A session of lines, those of the functions above or texts as they stand in a file. The line's place is its number in a report.
ror_session <- function(...) {
  lines <- c(...)
  if (!is.null(lines) && !is.character(lines)) ror_stop("session", "the lines are no texts", word = "BadLine")
  lines <- ror_utf8(lines)
  if (anyNA(lines)) ror_stop("session", "a line has no form in UTF-8", word = "NotUtf8")
  if (any(grepl("[\r\n]", lines, useBytes = TRUE))) ror_stop("session", "a line has the end of a line in it", word = "BadLine")
  structure(list(bytes = if (length(lines) > 0) ror_bytes(lines) else raw()), class = "ror_session")
}

# A session from a file, whose bytes are kept as they are.
ror_session_read <- function(path) structure(list(bytes = ror_read_bytes(path)), class = "ror_session")

ror_text_lines <- function(bytes) {
  lines <- strsplit(rawToChar(bytes), "\n", fixed = TRUE, useBytes = TRUE)[[1]]
  Encoding(lines) <- "UTF-8"
  lines
}

# the lines of somebody's text; one CR just before an LF belongs to the end of the line, and `?` stands for a NUL, which R has in no text
ror_given_lines <- function(bytes) {
  bytes <- bytes[!(bytes == as.raw(13) & c(bytes[-1], as.raw(0)) == as.raw(10))]
  bytes[bytes == as.raw(0)] <- charToRaw("?")
  ror_text_lines(bytes)
}

# the lines of a session
ror_session_lines <- function(session) ror_given_lines(session$bytes)

print.ror_session <- function(x, ...) {
  cat(ror_session_lines(x), sep = "\n")
  invisible(x)
}

# ---- programs

ror_folder <- local({
  files <- Filter(Negate(is.null), lapply(sys.frames(), function(frame) frame$ofile))
  if (length(files) > 0) dirname(normalizePath(files[[length(files)]])) else NULL
})

# The paths of the two programs; `program` is that of `ror`, of the folder that has both, or what this function gave.
ror_programs <- function(program = NULL) {
  if (identical(names(program), c("ror", "show"))) return(program)
  named <- Sys.getenv("ROR")
  if (!is.null(program)) return(ror_programs_at(program, "", "the argument"))
  if (nzchar(named)) return(ror_programs_at(named, Sys.getenv("ROR_SHOW"), "the environment variable ROR"))
  above <- if (is.null(ror_folder)) character() else file.path(dirname(ror_folder), "ror")
  found <- c(above[file.exists(above)], Sys.which("ror"))
  found <- found[nzchar(found) & file.exists(file.path(dirname(found), "ror_show"))]
  if (length(found) == 0) {
    ror_stop("program", "the program ror is not found: name it by the argument `program` or the environment variable ROR")
  }
  ror_programs_at(found[1], "", "the search")
}

ror_programs_at <- function(ror, show, source) {
  if (dir.exists(ror)) ror <- file.path(ror, "ror")
  if (!nzchar(show)) show <- file.path(dirname(ror), "ror_show")
  for (path in c(ror, show)) {
    if (!file.exists(path) || dir.exists(path)) ror_stop("program", paste(source, "leads to", path, "which is no program"))
  }
  c(ror = normalizePath(unname(ror)), show = normalizePath(unname(show)))
}

# the status, the output and the errors of a call, made in a folder of its own
ror_call <- function(program, words, files) {
  force(program)
  folder <- tempfile("ror-")
  dir.create(folder)
  before <- setwd(folder)
  on.exit({
    setwd(before)
    unlink(folder, recursive = TRUE)
  })
  for (name in names(files)) writeBin(files[[name]], name)
  command <- paste(c(shQuote(c(program, words)), "</dev/null >out 2>err; exit $?"), collapse = " ")
  timeout <- getOption("ror.timeout", 0)
  status <- suppressWarnings(system(command, timeout = timeout))
  if (timeout > 0 && status == 124) ror_stop("program", paste("the program was ended after", timeout, "seconds:", program), status)
  errors <- ror_given_lines(readBin("err", "raw", file.size("err")))
  list(status = as.integer(status), output = readBin("out", "raw", file.size("out")), errors = errors)
}

ror_files <- function(table, session = NULL) {
  if (!inherits(table, "ror_table")) ror_stop("table", "no table: ror_table or ror_table_read makes one")
  if (!is.null(session) && !inherits(session, "ror_session")) ror_stop("session", "no session: ror_session makes one")
  files <- list(table$bytes)
  names(files) <- if (table$xmcda) "table.xml" else "table.txt"
  if (!is.null(session)) files[["session.txt"]] <- session$bytes
  files
}

ror_behind_first <- function(errors) sub("^\n+", "", paste(errors[-1], collapse = "\n"))

# the output of `ror` and its status, 0 or 9; any other is raised, with the advice of `ror_show`
ror_run <- function(run, words, more = list()) {
  files <- c(run$files, more)
  done <- ror_call(run$programs[["ror"]], c(words[1], names(files), words[-1], run$options), files)
  if (!done$status %in% c(0L, 9L)) {
    advice <- ""
    if (done$status %in% c(3L, 4L)) {
      read <- ror_call(run$programs[["show"]], c("read", names(run$files), run$options), run$files)
      advice <- ror_behind_first(read$errors)
    }
    if (done$status == 5L && words[1] == "check") {
      page <- ror_call(run$programs[["show"]], c("standing", names(files), run$options), files)
      advice <- ror_behind_first(page$errors)
    }
    ror_stop_by_status(done$status, done$errors, advice)
  }
  done
}

# a page of `ror_show`
ror_page <- function(run, words, more = list()) {
  files <- c(run$files, more)
  done <- ror_call(run$programs[["show"]], c(words[1], names(files), words[-1], run$options), files)
  if (done$status != 0L) ror_stop_by_status(done$status, done$errors, ror_behind_first(done$errors))
  done$output
}

ror_run_of <- function(table, session, program) {
  list(files = ror_files(table, session), programs = ror_programs(program), table = table, session = session,
       options = if (table$best_first) "--best-first" else character())
}

ror_counts <- function(output) {
  words <- regmatches(rawToChar(output), regexec("^accepted ([0-9]+) wide ([0-9]+)\n$", rawToChar(output)))[[1]]
  if (length(words) == 0) ror_stop("program", "a check printed something else than its counts")
  as.numeric(words[2:3])
}

ror_width <- function(bits) {
  if (is.null(bits)) return(character())
  if (!identical(length(bits), 1L) || !bits %in% c(15, 31, 63, 127)) {
    ror_stop("usage", paste("bits are 15, 31, 63 or 127:", paste(bits, collapse = " ")))
  }
  c("--bits", format(bits))
}

# ---- reports

# Answers a session over a table, and checks the report. `bits` is 15, 31, 63 or 127, and 127 without it.
# The report has `accepted` (how many answers are proved), `wide` (how many answers and repairs conclude nothing), `status` (0, or 9
# where something is wide), `lines` (a data frame of what came of each line), `answers` (one of all answers with their verdicts),
# and `plain`, the bytes that `check` accepted.
ror_replay <- function(table, session, bits = NULL, program = NULL) {
  run <- ror_run_of(table, session, program)
  ror_told(ror_report(run, ror_run(run, c("replay", ror_width(bits)))$output))
}

# Checks a report of `replay` or `replay-json`, whoever wrote it: bytes, or the path of its file.
ror_check <- function(table, session, report, program = NULL) {
  run <- ror_run_of(table, session, program)
  bytes <- if (is.raw(report)) report else ror_read_bytes(report)
  if (ror_first_byte(bytes) == as.raw(123)) {
    ror_run(run, "check-json", list(report.json = bytes))
    bytes <- ror_plain_of(bytes)
  }
  ror_told(ror_report(run, bytes))
}

ror_report <- function(run, plain) {
  checked <- ror_run(run, "check", list(report.txt = plain))
  counts <- ror_counts(checked$output)
  report <- list(accepted = counts[1], wide = counts[2], status = checked$status, plain = plain, run = run)
  structure(c(report, ror_block_lines(plain, run$session)), class = "ror_report")
}

# the report, after a warning if lines were refused
ror_told <- function(report) {
  refused <- ror_refused(report)
  if (nrow(refused) > 0) {
    told <- paste(utils::head(paste0(refused$number, " (", refused$refusal, ")"), 5), collapse = ", ")
    message <- paste0("lines that are refused, change nothing and have no answer: ", told, if (nrow(refused) > 5) ", ..")
    warning(structure(class = c("ror_refused_warning", "warning", "condition"), list(message = message, call = NULL)))
  }
  report
}

print.ror_report <- function(x, ...) {
  cat("ror report, accepted ", ror_whole(x$accepted), " wide ", ror_whole(x$wide), " refused ", nrow(ror_refused(x)), "\n", sep = "")
  invisible(x)
}

# the words of a line, cut as a session's reader cuts them
ror_words <- function(line) {
  words <- strsplit(gsub("\t", " ", line, fixed = TRUE), " ", fixed = TRUE)[[1]]
  Encoding(words) <- "UTF-8"
  words[nzchar(words)]
}

# the lines of a report, but for the bases and parts of its proofs
ror_rows <- function(bytes) {
  rows <- ror_text_lines(bytes)
  rows[!startsWith(rows, "base ") & !startsWith(rows, "part ")]
}

# what came of each line, and the answers, as data frames; and the numbers that each repair dropped
ror_block_lines <- function(plain, session) {
  rows <- ror_rows(plain)
  rows <- rows[!startsWith(rows, "wide ")]
  rows <- rows[-c(1, length(rows))]
  kind <- sub(" .*", "", rows)
  heads <- which(kind == "line")
  block <- cumsum(kind == "line")
  number <- as.integer(substring(rows[heads], 6))
  first <- c(kind, "line")[heads + 1]
  operand <- sub("^[^ ]* ?", "", c(rows, "")[heads + 1])
  words <- lapply(ror_session_lines(session)[number], ror_words)
  has_desk <- vapply(words, function(it) startsWith(it[1], "@"), TRUE)
  desk <- vapply(words, function(it) if (startsWith(it[1], "@")) substring(it[1], 2) else "", "")
  words[has_desk] <- lapply(words[has_desk], function(it) it[-1])
  numbered <- first %in% c("added", "withdrawn", "replaced", "repair-wide")
  statement <- rep(NA_real_, length(heads))
  statement[numbered] <- as.numeric(operand[numbered])
  lines <- data.frame(number = number, desk = desk, text = vapply(words, paste, "", collapse = " "),
                      outcome = ifelse(first %in% c("line", "answer"), "answered", first), statement = statement,
                      refusal = ifelse(first == "refused", operand, NA_character_))
  gone <- kind == "dropped"
  dropped <- split(as.numeric(sub("^dropped ([0-9]+) .*", "\\1", rows[gone])), factor(block[gone], seq_along(heads)))
  said <- kind == "answer"
  answers <- data.frame(line = number[block[said]], place = sequence(rle(block[said])$lengths), desk = desk[block[said]],
                        question = sub("^answer (.*) [^ ]*$", "\\1", rows[said]), verdict = sub(".* ", "", rows[said]))
  list(lines = lines, answers = answers, dropped = unname(dropped))
}

ror_asked <- function(report, line) {
  row <- report$lines[report$lines$number == line, ]
  if (nrow(row) == 0) ror_stop("no_answer", paste("line", line, "of the session says nothing, or isn't there"), line = as.integer(line))
  if (row$outcome == "refused") {
    ror_stop("no_answer", paste("line", line, "is refused:", row$refusal), word = row$refusal, line = as.integer(line))
  }
  if (row$outcome != "answered") ror_stop("no_answer", paste0("line ", line, " asks nothing: ", row$text), line = as.integer(line))
  row
}

# The lines that were refused: they changed nothing and have no answer.
ror_refused <- function(report) {
  rows <- report$lines[report$lines$outcome == "refused", c("number", "desk", "text", "refusal")]
  rownames(rows) <- NULL
  rows
}

# Both relations that a line with `ask relation` asked for, as verdicts: yes, no, contradiction or wide. The line may be left out if
# there is one.
ror_relation <- function(report, line = NULL) {
  asked <- report$lines[report$lines$outcome == "answered" & report$lines$text == "ask relation", ]
  if (is.null(line)) {
    if (nrow(asked) != 1) {
      which <- paste0(" ", asked$number, collapse = "")
      ror_stop("no_answer", paste0("`ask relation` is answered ", nrow(asked), " times: name a line", which))
    }
    line <- asked$number
  }
  row <- ror_asked(report, line)
  if (row$text != "ask relation") ror_stop("no_answer", paste0("line ", line, " asks something else: ", row$text), line = as.integer(line))
  answers <- report$answers[report$answers$line == line, ]
  first <- seq(1, length.out = nrow(answers) / 2, by = 2)
  words <- strsplit(answers$question[first], " ", fixed = TRUE)
  data.frame(first = vapply(words, function(it) it[2], ""), second = vapply(words, function(it) it[3], ""),
             necessary = answers$verdict[first], possible = answers$verdict[first + 1])
}

# raises a contradiction or a wide verdict
ror_concluded <- function(verdicts, what) {
  if (any(verdicts == "contradiction")) {
    ror_stop("contradiction", paste0(what, ": no value function agrees with the statements"), word = "contradiction")
  }
  if (any(verdicts == "wide")) {
    ror_stop("wide", paste0(what, ": a number passed the bits, so something is not concluded"), 9L, word = "wide")
  }
}

# The pairs whose first alternative is at least as good as the second by all functions that agree, or by some one. A contradiction or
# a wide answer is raised.
ror_necessary <- function(report, line = NULL) ror_pairs(ror_relation(report, line), "necessary")
ror_possible <- function(report, line = NULL) ror_pairs(ror_relation(report, line), "possible")

ror_pairs <- function(relation, kind) {
  ror_concluded(relation[[kind]], paste("the", kind, "relation"))
  rows <- relation[relation[[kind]] == "yes", c("first", "second")]
  rownames(rows) <- NULL
  rows
}

# The answers to `ask classes`, a row for each class: whether some function leaves it to the alternative, and whether all do.
ror_classes <- function(report, line = NULL) {
  if (!is.null(line)) ror_asked(report, line)
  asked <- report$lines[report$lines$outcome == "answered" & startsWith(report$lines$text, "ask classes "), ]
  if (!is.null(line)) asked <- asked[asked$number == line, ]
  if (nrow(asked) == 0) {
    if (is.null(line)) ror_stop("no_answer", "`ask classes` isn't answered")
    ror_stop("no_answer", paste("line", line, "doesn't ask for classes"), line = as.integer(line))
  }
  answers <- report$answers[report$answers$line %in% asked$number, ]
  first <- answers$place %% 2 == 1
  text <- asked$text[match(answers$line[first], asked$number)]
  data.frame(line = answers$line[first], desk = answers$desk[first], alternative = substring(text, nchar("ask classes ") + 1),
             class = (answers$place[first] + 1L) %/% 2L, possible = answers$verdict[first], necessary = answers$verdict[!first])
}

# The lowest and the highest class that some function leaves to each alternative asked for, NA where there is none. A contradiction or
# a wide answer is raised.
ror_class_ranges <- function(report, line = NULL) {
  rows <- ror_classes(report, line)
  ror_concluded(rows$possible, "classes")
  each <- lapply(split(rows, factor(rows$line, unique(rows$line))), function(it) {
    left <- it$class[it$possible == "yes"]
    data.frame(line = it$line[1], desk = it$desk[1], alternative = it$alternative[1],
               lowest = if (length(left) > 0) min(left) else NA_integer_, highest = if (length(left) > 0) max(left) else NA_integer_)
  })
  frame <- do.call(rbind, each)
  rownames(frame) <- NULL
  frame
}

# a page in CSV, all columns as texts
ror_csv <- function(bytes) {
  path <- tempfile("ror-")
  on.exit(unlink(path))
  writeBin(bytes, path)
  utils::read.csv(path, colClasses = "character", na.strings = character(), check.names = FALSE, encoding = "UTF-8",
                  quote = "\"", comment.char = "", strip.white = FALSE)
}

# The value functions in the answers to a line: what each level is worth. `level`, `marginal` and `total` are exact texts; `share` is
# the marginal value as a share of the total, as a double. `place` counts the line's answers; `label` is `base`, or the question that
# the function decides with the verdict. An answer has its own function `base` only if the previous answer hasn't the same. A function
# whose total passes 127 bits is left out.
ror_functions <- function(report, line) {
  ror_asked(report, line)
  ror_shown_functions(report$run, line, report$plain)
}

ror_shown_functions <- function(run, line, plain) {
  page <- ror_page(run, c("functions", "--line", ror_count(line), "--as", "csv"), list(report.txt = plain))
  rows <- ror_csv(page)
  data.frame(place = as.integer(rows$answer), label = rows[["function"]], criterion = rows$criterion, level = rows$level,
             marginal = rows$marginal, total = rows$total, share = as.numeric(rows$marginal) / as.numeric(rows$total))
}

# The weight of each criterion in each of these functions: the marginal value of its best level.
ror_weights <- function(functions) {
  rows <- functions[!duplicated(functions[names(functions) %in% c("place", "label", "criterion")], fromLast = TRUE), ]
  names(rows)[names(rows) == "marginal"] <- "weight"
  rownames(rows) <- NULL
  rows[names(rows) != "level"]
}

# The value of each alternative of a plain table by each of these functions: `value` is exact, as `marginal` is.
ror_values <- function(functions, table, program = NULL) {
  levels <- ror_performances(table, program)
  key <- paste(functions$place, functions$label)
  rows <- lapply(split(functions, factor(key, unique(key))), function(it) {
    worth <- vapply(colnames(levels), function(criterion) {
      here <- it[it$criterion == criterion, ]
      here$marginal[match(levels[, criterion], here$level)]
    }, character(nrow(levels)))
    if (anyNA(worth) || !setequal(colnames(levels), it$criterion)) {
      ror_stop("table", "a performance is no level of the function, which says nothing of it")
    }
    value <- ror_sums(matrix(worth, nrow(levels)))
    data.frame(it[rep(1, length(value)), names(it) %in% c("place", "label"), drop = FALSE], alternative = rownames(levels),
               value = value, total = it$total[1], share = as.numeric(value) / as.numeric(it$total[1]), row.names = NULL)
  })
  do.call(rbind, unname(rows))
}

# the performances of a plain table, as the program writes levels: a row for each alternative, a column for each criterion
ror_performances <- function(table, program) {
  sheet <- ror_sheet(table, program)
  if (table$xmcda) ror_stop("table", "the performances of a table in XMCDA are known to the program alone")
  words <- lapply(ror_given_lines(table$bytes), ror_words)
  rows <- do.call(rbind, words[vapply(words, function(it) identical(it[1], "alternative"), TRUE)])
  given <- unique(c(rows[, -(1:2)]))
  levels <- lapply(split(given, (seq_along(given) - 1) %/% 64), function(it) {
    lines <- c("ror-table 3", paste("criterion", seq_along(it), "max"), paste(c("alternative a", it), collapse = " "))
    ror_sheet(ror_table_of(ror_bytes(lines), FALSE), program)$levels
  })
  matrix(unlist(levels)[match(rows[, -(1:2)], given)], nrow(rows), dimnames = list(rows[, 2], sheet$criteria$name))
}

# the sum of each row of whole numbers in decimal digits, exactly
ror_sums <- function(words) {
  apply(words, 1, function(row) {
    width <- max(nchar(row)) + 2
    digits <- strsplit(paste0(strrep("0", width - nchar(row)), row), "")
    sums <- Reduce(`+`, lapply(digits, as.integer))
    for (place in width:2) {
      sums[place - 1] <- sums[place - 1] + sums[place] %/% 10
      sums[place] <- sums[place] %% 10
    }
    sub("^0+(?=.)", "", paste(sums, collapse = ""), perl = TRUE)
  })
}

# The certificates of reasons that `ror_show why` writes, once `check-why` accepted them.
ror_certificates <- function(report, line = NULL) {
  if (!is.null(line)) ror_asked(report, line)
  words <- c("why", "--as", "certificates", if (!is.null(line)) c("--line", ror_count(line)))
  found <- ror_page(report$run, words, list(report.txt = report$plain))
  ror_page(report$run, "check-why", list(report.txt = report$plain, certificates.txt = found))
  found
}

# Why the answers to a line, or to all lines, are what they are: a row for each statement that carries an answer, or one with NA where no
# statement is needed. Of these none can be spared, and others may carry it too. An answer that one function decides has no rows; nor has
# one whose reason is too wide, or a repair.
ror_reasons <- function(report, line = NULL) {
  reducts <- grep("^reduct ", ror_text_lines(ror_certificates(report, line)), value = TRUE)
  words <- lapply(strsplit(reducts, " ", fixed = TRUE), function(it) as.integer(it[-1]))
  numbers <- lapply(words, function(it) if (length(it) > 2) it[-(1:2)] else NA_integer_)
  keys <- vapply(words, function(it) paste(it[1], it[2]), "")
  rows <- report$answers[match(keys, paste(report$answers$line, report$answers$place)), ]
  stood <- ror_stood(report, match(rows$line, report$lines$number))
  said <- do.call(rbind, c(list(ror_no_statements), Map(function(it, numbers) it[match(numbers, it$number), ], stood, numbers)))
  rows <- rows[rep(seq_along(numbers), lengths(numbers)), c("line", "place", "question", "verdict")]
  data.frame(rows, number = said$number, statement = said$text, said_in = said$line, row.names = NULL)
}

# What stands after a line at its desk; or, without a line, in the end at a desk. `line` is the line that said the statement, NA where
# the table's file brings it.
ror_standing <- function(report, line = NULL, desk = "") {
  lines <- report$lines
  at <- if (is.null(line)) utils::tail(which(lines$desk == desk), 1) else match(line, lines$number)
  if (anyNA(at)) ror_stop("no_answer", paste("line", line, "of the session says nothing, or isn't there"), line = as.integer(line))
  if (length(at) > 0) return(ror_stood(report, at)[[1]])
  if (nrow(lines) > 0) ror_stop("no_answer", paste0("the session has no desk `", desk, "`"))
  ror_brought(report$run)
}

ror_no_statements <- data.frame(number = numeric(), text = character(), line = integer())

# the statements that the table's file brings, as ror_standing has them
ror_brought <- function(run) {
  opening <- ror_opening(run)
  data.frame(number = as.numeric(seq_along(opening)), text = opening, line = rep(NA_integer_, length(opening)))
}

# what stood after each of these rows of the lines, or before it, at its desk
ror_stood <- function(report, places, before = FALSE) {
  lines <- report$lines
  said <- which(lines$outcome %in% c("added", "replaced"))
  text <- sub("^replace [0-9]+ ", "", lines$text[said])
  class <- grepl("^class ", text)
  text[class] <- vapply(lapply(text[class], ror_words), function(it) paste(c(it[1:2], as.integer(it[3:4])), collapse = " "), "")
  brought <- ror_brought(report$run)
  statements <- rbind(brought, data.frame(number = lines$statement[said], text = text, line = lines$number[said]))
  own <- match(seq_len(nrow(lines)), said) + nrow(brought)
  wanted <- seq_len(nrow(lines)) %in% places
  found <- vector("list", nrow(lines))
  for (desk in unique(lines$desk[places])) {
    standing <- seq_len(nrow(brought))
    past <- vector("list", sum(lines$desk == desk))
    depth <- 0
    for (place in which(lines$desk == desk)) {
      if (before && wanted[place]) found[[place]] <- standing
      outcome <- lines$outcome[place]
      if (outcome == "undone") {
        standing <- past[[depth]]
        depth <- depth - 1
      } else if (outcome %in% c("added", "withdrawn", "replaced", "repaired")) {
        depth <- depth + 1
        past[[depth]] <- standing
        gone <- if (outcome == "repaired") report$dropped[[place]] else lines$statement[place]
        standing <- c(standing[!statements$number[standing] %in% gone], if (!is.na(own[place])) own[place])
      }
      if (!before && wanted[place]) found[[place]] <- standing
    }
  }
  lapply(found[places], function(rows) {
    rows <- statements[rows[order(statements$number[rows])], ]
    rownames(rows) <- NULL
    rows
  })
}

# The repairs: a row for each statement that one withdrew, since it contradicts those kept before it.
ror_repairs <- function(report) {
  places <- which(lengths(report$dropped) > 0)
  rows <- Map(function(stood, gone) stood[match(gone, stood$number), ], ror_stood(report, places, before = TRUE), report$dropped[places])
  said <- do.call(rbind, c(list(ror_no_statements), rows))
  line <- rep(report$lines$number[places], lengths(report$dropped[places]))
  data.frame(line = line, number = said$number, statement = said$text)
}

# the statements that the table's file brings, by the sheet that `ror_show read` writes
ror_opening <- function(run) {
  if (!run$table$xmcda) return(character())
  ror_sheet(run$table, run$programs)$statements
}

# What the program reads of a table, plain or in XMCDA: a data frame of the criteria, a list of their levels from worst to best (as
# exact texts), the alternatives, how many classes there are, and the statements that the file brings.
ror_sheet <- function(table, program = NULL) {
  run <- ror_run_of(table, NULL, program)
  words <- unlist(strsplit(ror_text_lines(ror_page(run, "read")), " ", fixed = TRUE))
  Encoding(words) <- "UTF-8"
  words <- words[nzchar(words)]
  at <- 1
  take <- function(count = 1) {
    force(count)
    at <<- at + count
    words[seq(at - count, length.out = count)]
  }
  whole <- function(word) as.integer(sub(",$", "", word))
  expect <- function(text) for (word in strsplit(text, " ", fixed = TRUE)[[1]]) {
    came <- take()
    if (!identical(came, word)) ror_stop("program", paste0("the sheet of a table has ", came, " where ", word, " should stand"))
  }
  expect("criteria")
  criteria <- whole(take())
  expect("each with its levels from worst to best; columns")
  take()
  expect("(one for each step, or one for a linear criterion)")
  rows <- vector("list", criteria)
  levels <- list()
  for (place in seq_len(criteria)) {
    name <- take()
    direction <- take()
    linear <- !endsWith(direction, ",")
    if (linear) expect("linear,")
    expect("steps")
    levels[[name]] <- take(whole(take()) + 1)
    rows[[place]] <- data.frame(name = name, direction = sub(",$", "", direction), linear = linear)
  }
  expect("alternatives")
  alternatives <- take(whole(take()))
  expect("classes")
  word <- take()
  classes <- if (word == "none") 0L else whole(word)
  if (classes > 0) expect(paste("1 is the worst and", classes, "the best"))
  expect("statements that the file brings, at every desk:")
  statements <- character(whole(take()))
  for (place in seq_along(statements)) {
    expect(as.character(place))
    form <- take()
    statements[place] <- paste(c(form, take(if (form == "class") 3 else 2)), collapse = " ")
  }
  list(criteria = do.call(rbind, rows), levels = levels, alternatives = alternatives, classes = classes, statements = statements)
}

# ---- a report in JSON is turned into plain text, which is checked before anything of it is shown

ror_whole <- function(numbers) format(as.numeric(unlist(numbers)), scientific = FALSE, trim = TRUE)

ror_proof_text <- function(it) {
  if (!is.null(it$solution)) return(paste(c("solution", unlist(it$solution)), collapse = " "))
  paste(c("multipliers", unlist(it$multipliers$weak), "|", unlist(it$multipliers$strict)), collapse = " ")
}

ror_proof_texts <- function(word, numbers, proofs) {
  if (length(proofs) > 0) paste(word, ror_whole(numbers), vapply(proofs, ror_proof_text, "")) else character()
}

ror_wide_text <- function(it) {
  path <- vapply(it$path, function(pair) paste(ror_whole(pair), collapse = ":"), "")
  paste(c("wide", ror_whole(it$system), it$place[[1]], ror_whole(it$place[-1]), "path", path), collapse = " ")
}

ror_answer_text <- function(it) {
  head <- paste("answer", it$question, it$verdict)
  if (!is.null(it$wide)) return(c(head, ror_wide_text(it$wide)))
  c(head, paste("base", ror_proof_text(it$base)), ror_proof_texts("part", lapply(it$parts, function(part) part$at), it$parts))
}

# of equal keys the last one, as `check-json` takes it
ror_last_keys <- function(it) {
  if (!is.list(it)) return(it)
  lapply(if (is.null(names(it))) it else it[!duplicated(names(it), fromLast = TRUE)], ror_last_keys)
}

# the plain text of a report in JSON that `check-json` accepted
ror_plain_of <- function(bytes) {
  text <- rawToChar(bytes)
  Encoding(text) <- "UTF-8"
  blocks <- ror_last_keys(jsonlite::fromJSON(text, simplifyVector = FALSE))$blocks
  lines <- lapply(blocks, function(block) {
    kind <- setdiff(names(block), "line")
    value <- block[[kind]]
    c(paste("line", ror_whole(block$line)), switch(kind,
      undone = "undone",
      refused = paste("refused", value),
      repaired = c(paste("repaired", length(value$dropped)),
                   ror_proof_texts("dropped", lapply(value$dropped, function(it) it$number), value$dropped),
                   paste("base", ror_proof_text(value$base))),
      `repair-wide` = c(paste("repair-wide", ror_whole(value$number)), ror_wide_text(value$wide)),
      answers = unlist(lapply(value, ror_answer_text)),
      paste(kind, ror_whole(value))))
  })
  ror_bytes(c("ror-report 1", unlist(lines), paste("end", ror_whole(length(blocks)))))
}

# ---- groups, functions to show, levels, generated sessions

# the report of a command, once the command's check accepted it
ror_checked <- function(run, command, bits, more = list()) {
  found <- ror_run(run, c(command, ror_width(bits)), more)$output
  counts <- ror_counts(ror_run(run, paste0("check-", command), c(more, list(report.txt = found)))$output)
  ror_told(ror_without_questions(run))
  list(lines = strsplit(ror_rows(found), " ", fixed = TRUE), accepted = counts[1], wide = counts[2])
}

# a report of the session's other lines, for commands that pass questions over and don't say which lines they refuse
ror_without_questions <- function(run) {
  said <- ror_session_lines(run$session)
  passed <- vapply(said, function(line) {
    words <- ror_words(line)
    if (length(words) > 1 && startsWith(words[1], "@")) words <- words[-1]
    length(words) > 0 && (words[1] == "ask" || startsWith(words[1], "#"))
  }, TRUE)
  said[passed] <- "#"
  run <- ror_run_of(run$table, ror_session(said), run$programs)
  ror_report(run, ror_run(run, "replay")$output)
}

ror_starting <- function(lines, word) lines[vapply(lines, function(words) words[1] == word, TRUE)]

ror_desk_names <- function(lines) vapply(ror_starting(lines, "desk"), function(words) if (length(words) == 2) words[2] else "", "")

# What all judges say together: is the first alternative at least as good as the second by all functions (necessary), by some one
# (possible), for all judges, for some of them? As words: yes, no, contradiction or wide. The attribute `judges` has each judge's verdicts.
ror_group <- function(table, session, bits = NULL, program = NULL) {
  found <- ror_checked(ror_run_of(table, session, program), "group", bits)
  pairs <- do.call(rbind, c(list(character()), ror_starting(found$lines, "pair")))
  words <- do.call(rbind, c(list(character()), ror_starting(found$lines, "group")))
  if (length(pairs) == 0) pairs <- words <- matrix("", 0, 5)
  frame <- data.frame(first = pairs[, 2], second = pairs[, 3], necessary_for_all = words[, 2], necessary_for_some = words[, 3],
                      possible_for_all = words[, 4], possible_for_some = words[, 5])
  desks <- ror_desk_names(found$lines)
  verdicts <- vapply(ror_starting(found$lines, "answer"), function(words) words[length(words)], "")
  odd <- seq_along(verdicts) %% 2 == 1
  attr(frame, "desks") <- desks
  attr(frame, "judges") <- data.frame(first = rep(frame$first, each = length(desks)), second = rep(frame$second, each = length(desks)),
                                      desk = rep(desks, nrow(frame)), necessary = verdicts[odd], possible = verdicts[!odd])
  attr(frame, "accepted") <- found$accepted
  attr(frame, "wide") <- found$wide
  frame
}

# From which level of confidence on the first alternative is at least as good as the second by all functions (necessary), up to which by
# some one (possible, 0 for none), and from which on the statements are contradictory; a number past `count` says never. `put` has the
# level of a statement by its number, as in c("3" = 2); others are on level 1. `wide` is the level at which an answer was too wide.
ror_levels <- function(table, session, count, put = numeric(), bits = NULL, program = NULL) {
  lines <- c("ror-levels 1", paste("count", ror_count(count, "levels")))
  if (length(put) > 0) {
    numbers <- suppressWarnings(as.numeric(names(put)))
    lines <- c(lines, paste("put", ror_count(if (length(numbers) > 0) numbers else NA_real_, "levels"), ror_count(put, "levels")))
  }
  found <- ror_checked(ror_run_of(table, session, program), "levels", bits, list(levels.txt = ror_bytes(lines)))
  pairs <- ror_starting(found$lines, "pair")
  word <- function(place) vapply(pairs, function(words) words[place], "")
  wide <- word(4) == "wide"
  number <- function(place, given) as.integer(ifelse(given, word(place), NA))
  data.frame(first = word(2), second = word(3), necessary = number(7, !wide), possible = number(9, !wide),
             contradictory = number(5, !wide), wide = number(5, wide))
}

# A most discriminating function for each desk: a list, by the desks, of `outcome` (margin; none, where nothing is said strictly;
# contradiction; wide), `margin` (the greatest possible least amount by which what is said strictly holds, as an exact ratio of the value
# of all best levels) and `marginals` (a data frame as of ror_functions). It is one of several such functions.
ror_discriminate <- function(table, session, bits = NULL, program = NULL) {
  run <- ror_run_of(table, session, program)
  lines <- ror_checked(run, "discriminate", bits)$lines
  starts <- which(vapply(lines, function(words) words[1] == "desk", TRUE))
  desks <- ror_desk_names(lines)
  found <- Map(function(at, desk) {
    body <- lines[[at + 1]]
    if (body[1] != "margin") return(list(outcome = body[1], margin = NA_character_, marginals = NULL))
    list(outcome = "margin", margin = paste0(body[2], "/", body[3]), marginals = ror_function_at(run, lines[[at + 2]], body[3]))
  }, starts, desks)
  names(found) <- desks
  found
}

# The function of a solution, by the page of functions. The page is of a session that withdraws what the table's file brings, and asks
# whether the statements are consistent: the answer has this solution.
ror_function_at <- function(run, solution, total) {
  brought <- seq_along(ror_opening(run))
  last <- length(brought) + 1
  own <- ror_run_of(run$table, ror_session(sprintf("withdraw %d", brought), "ask consistent"), run$programs)
  text <- c("ror-report 1", rbind(sprintf("line %d", brought), sprintf("withdrawn %d", brought)), paste("line", last),
            "answer consistent yes", paste(c("base", solution), collapse = " "), paste("end", last))
  rows <- ror_shown_functions(own, last, ror_bytes(text))
  if (nrow(rows) == 0 || any(rows$total != total)) {
    ror_stop("program", "the page of functions shows another function than the one that was found")
  }
  rows$label <- "most discriminating"
  rows[, c("label", "criterion", "level", "marginal", "total", "share")]
}

# What `generate` counts: makes a table and a session of a number, answers it, and checks the answers.
ror_generate <- function(number, program = NULL) {
  done <- ror_call(ror_programs(program)[["ror"]], c("generate", ror_count(number, "usage")), list())
  if (!done$status %in% c(0L, 9L)) ror_stop_by_status(done$status, done$errors, "")
  text <- rawToChar(done$output)
  counts <- as.numeric(regmatches(text, gregexpr("[0-9]+", text))[[1]])
  if (length(counts) != 8) ror_stop("program", "generate printed something else than its counts")
  data.frame(number = counts[1], lines = counts[2], yes = counts[3], no = counts[4], contradiction = counts[5], wide = counts[6],
             accepted = counts[7])
}
