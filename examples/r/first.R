# The total of the sheet on standard input, or why it is refused. evaporation.c beside it is compiled with R CMD SHLIB:
#   PKG_CPPFLAGS=$(pkg-config --cflags evaporation) PKG_LIBS=$(pkg-config --libs evaporation) \
#       R CMD SHLIB evaporation.c
dyn.load(Sys.getenv("EVAPORATION_R", "evaporation.so"))

input <- file("stdin", "rb")
sheet <- readBin(input, "raw", 25257)  # one byte more than the longest: a longer sheet is refused by its length
close(input)

answer <- .C("evaporation_first", sheet, length(sheet), found = double(7), text = strrep(" ", 128))
found <- setNames(as.list(answer$found), c("number", "place", "low", "high", "value", "least", "most"))
if (found$number != 0) {
  cat(sprintf("refused %.0f at %.0f: %s\n", found$number, found$place, answer$text))
  cat(sprintf("value %.0f, may be %.0f to %.0f\n", found$value, found$least, found$most))
  quit(status = 1)
}
cat(sprintf("total %.0f to %.0f mg\n", found$low, found$high))
