#!/usr/bin/env Rscript
# Writes what the map has under the rows, from data in the public domain that Debian ships:
# page/outlines-110m.json and page/outlines-50m.json: the outer rings of Natural Earth's countries at 1:110 and 1:50 million
# (r-cran-rnaturalearthdata), as one GeoJSON MultiPolygon each, to a hundredth of a degree. Countries inside a country have a ring of
# their own, so holes are left out.
# page/names.json: names with longitude and latitude: the same countries, at their largest part and with its square degrees, the large
# ones first; and the principal places of the time zones (tzdata).
library(rnaturalearthdata)

ring <- function(polygon) {
  points <- round(attr(polygon, "coords"), 2)
  repeated <- c(FALSE, rowSums(abs(diff(points))) == 0)
  points <- points[!repeated, , drop = FALSE]
  if (attr(polygon, "hole") || nrow(points) < 4) return(NULL)
  paste0("[[", paste(sprintf("[%s,%s]", points[, 1], points[, 2]), collapse = ","), "]]")
}

largest <- function(country) {
  parts <- attr(country, "Polygons")
  parts[[which.max(sapply(parts, attr, "area"))]]
}

entries <- function(names, points, ...) {
  numbers <- do.call(paste, c(list(round(points[, 1], 2), round(points[, 2], 2), ...), sep = ","))
  paste(sprintf('["%s",%s]', names, numbers), collapse = ",\n")
}

# Degrees of such as +0519 or -0042556: degrees, minutes and seconds.
degrees <- function(text, width) {
  part <- function(from, length) {
    digits <- substr(text, from, from + length - 1)
    ifelse(digits == "", 0, as.numeric(digits))
  }
  sign <- ifelse(substr(text, 1, 1) == "-", -1, 1)
  sign * (part(2, width) + part(2 + width, 2) / 60 + part(4 + width, 2) / 3600)
}

for (scale in c("110", "50")) {
  countries <- get(paste0("countries", scale))
  rings <- unlist(lapply(attr(countries, "polygons"), function(country) lapply(attr(country, "Polygons"), ring)))
  cat(sprintf('{"type":"MultiPolygon","coordinates":[\n%s\n]}\n', paste(rings, collapse = ",\n")),
      file = sprintf("page/outlines-%sm.json", scale), sep = "")
}

parts <- lapply(attr(countries50, "polygons"), largest)
order <- order(-sapply(parts, attr, "area"))
areas <- signif(sapply(parts[order], attr, "area"), 3)
countries <- entries(attr(countries50, "data")$name[order], t(sapply(parts[order], attr, "labpt")), areas)

zones <- read.delim("/usr/share/zoneinfo/zone1970.tab", comment.char = "#", header = FALSE, quote = "")
places <- regmatches(zones$V2, regexec("^([+-][0-9]+)([+-][0-9]+)$", zones$V2))
points <- t(sapply(places, function(place) c(degrees(place[3], 3), degrees(place[2], 2))))
others <- strsplit(readLines("/usr/share/zoneinfo/zone.tab"), "\t")
others <- Filter(function(line) length(line) > 2 && !startsWith(line[1], "#") && !(line[3] %in% zones$V3), others)
more <- t(sapply(others, function(line) {
  place <- regmatches(line[2], regexec("^([+-][0-9]+)([+-][0-9]+)$", line[2]))[[1]]
  c(degrees(place[3], 3), degrees(place[2], 2))
}))
ids <- c(zones$V3, sapply(others, `[`, 3))
cities <- entries(gsub("_", " ", sub(".*/", "", ids)), rbind(points, more))
cat(sprintf('{"countries":[\n%s\n],"places":[\n%s\n]}\n', countries, cities), file = "page/names.json", sep = "")
