package antientropy_test

import (
	"fmt"
	"os"
	"path/filepath"
	"regexp"
	"strconv"
	"strings"
	"testing"

	antientropy "example.org/antientropy/go"
)

var (
	comments = regexp.MustCompile(`(?s)/\*.*?\*/|//[^\n]*`)
	// The calls that the header's inline functions make.
	sharesOf = regexp.MustCompile(`(?m)^uint32_t antientropy_share_`)
)

// textOf returns the text of files, without comments.
func textOf(t *testing.T, pattern string) string {
	var text strings.Builder
	for _, name := range must(filepath.Glob(pattern)) {
		if !strings.HasSuffix(name, "_test.go") {
			text.Write(must(os.ReadFile(name)))
		}
	}
	if text.Len() == 0 {
		t.Fatalf("there is no file %s", pattern)
	}
	return comments.ReplaceAllString(text.String(), "")
}

func header(t *testing.T) string {
	return textOf(t, "../../include/antientropy.h")
}

// numbers returns the numbers of the header's enums and limits, by their names.
func numbers(t *testing.T) map[string]uint64 {
	numbers := map[string]uint64{}
	named := regexp.MustCompile(`ANTIENTROPY_(\w+) (?:= )?(\d+)\b`)
	for _, match := range named.FindAllStringSubmatch(header(t), -1) {
		numbers[match[1]] = must(strconv.ParseUint(match[2], 10, 64))
	}
	return numbers
}

// camel returns BadClock for BAD_CLOCK.
func camel(name string) string {
	var words []string
	for _, word := range strings.Split(name, "_") {
		words = append(words, word[:1]+strings.ToLower(word[1:]))
	}
	return strings.Join(words, "")
}

// The calls that only C programs make: the loop of a sync, which an exchange replaces here, and reads of a part of a
// version, since one call here reads all versions of a key.
var onlyC = map[string]bool{
	"open": true, "open_at_moment": true, "outstanding": true, "ask_at": true, "ask": true, "outline_at": true,
	"take": true, "session": true, "cancel": true, "versions": true, "value": true, "clock": true,
}

// Each call of the header is used, except the calls that only C programs make.
func TestEachCallOfTheHeaderIsUsed(t *testing.T) {
	source := textOf(t, "*.go") + textOf(t, "*.c")
	declared := regexp.MustCompile(`(?m)^(?:static inline )?(?:uint32_t|void) antientropy_(\w+)\(`)
	calls := declared.FindAllStringSubmatch(sharesOf.ReplaceAllString(header(t), ""), -1)
	for _, call := range calls {
		isUsed := regexp.MustCompile(`\bantientropy_` + call[1] + `\(`).MatchString(source)
		equal(t, []any{call[1], isUsed}, []any{call[1], !onlyC[call[1]]})
	}
	if len(calls) < 50 {
		t.Errorf("the header has %d calls", len(calls))
	}
}

// Each refusal of the header is a constant, with the name that the library has for it.
func TestEachRefusalOfTheHeader(t *testing.T) {
	_, text, _ := strings.Cut(header(t), "ANTIENTROPY_OK = 0,")
	text, _, _ = strings.Cut(text, "}")
	causes := regexp.MustCompile(`ANTIENTROPY_(\w+) = (\d+)`).FindAllStringSubmatch(text, -1)
	if len(causes) < 29 {
		t.Errorf("the header has %d refusals", len(causes))
	}
	source := textOf(t, "refusal.go")
	for _, cause := range causes {
		name := camel(cause[1])
		constant := regexp.MustCompile(`\bErr` + name + ` +Refusal = C\.ANTIENTROPY_` + cause[1] + `\b`)
		if !constant.MatchString(source) {
			t.Errorf("there is no constant Err%s of %s", name, cause[1])
		}
		equal(t, antientropy.Refusal(must(strconv.ParseUint(cause[2], 10, 32))).Name(), name)
	}
	equal(t, strings.Count(source, "Refusal = C."), len(causes))
}

// Each limit of the header is a constant of the same name.
func TestLimitsOfTheHeader(t *testing.T) {
	source := textOf(t, "library.go")
	limits := regexp.MustCompile(`(?m)^#define ANTIENTROPY_(\w+) \d+`).FindAllStringSubmatch(header(t), -1)
	count := 0
	for _, limit := range limits {
		if name := limit[1]; !strings.HasPrefix(name, "VERSION_M") && name != "VERSION_PATCH" && name != "NAME_MAX" {
			constant := regexp.MustCompile(`(?m)^\s+` + camel(name) + ` += C\.ANTIENTROPY_` + name + ` *$`)
			equal(t, []any{name, constant.MatchString(source)}, []any{name, true})
			count++
		}
	}
	equal(t, strings.Count(source, "= C."), count)
}

// A method holds the lock to its end, which also keeps the collector from closing the handle meanwhile.
func TestEachLockIsHeldToTheEnd(t *testing.T) {
	source := textOf(t, "*.go")
	for take, give := range map[string]string{"locked": "Unlock", "reading": "RUnlock"} {
		locks := regexp.MustCompile(`\S\.`+take+`\(\)`).FindAllString(source, -1)
		held := regexp.MustCompile(`held := \S+\.`+take+`\(\)\n\s+defer held\.lock\.`+give+`\(\)`).FindAllString(source, -1)
		equal(t, []any{len(locks) > 20, len(held)}, []any{true, len(locks)})
	}
	// five handles, two methods of orphans, and two of the freer
	equal(t, []int{strings.Count(source, ".Lock()"), strings.Count(source, ".RLock()")}, []int{5 + 2 + 2, 2})
}

func TestEnumsOfTheHeader(t *testing.T) {
	numbers := numbers(t)
	for name, number := range map[string]uint64{
		"LIVE": uint64(antientropy.Live), "TOMBSTONE": uint64(antientropy.Tombstone),
		"PUT": uint64(antientropy.SourcePut), "COPY": uint64(antientropy.SourceCopy),
		"HINT": uint64(antientropy.SourceHint), "PARTNER": uint64(antientropy.SourcePartner),
		"BEFORE": uint64(antientropy.Before), "AFTER": uint64(antientropy.After),
		"EQUAL": uint64(antientropy.Equal), "APART": uint64(antientropy.Apart),
	} {
		wanted, found := numbers[name]
		equal(t, []any{name, number, true}, []any{name, wanted, found})
	}
}

// Each verdict and each report of the header is a constant, and has its name.
func TestVerdictsAndReportsOfTheHeader(t *testing.T) {
	source, count := textOf(t, "exchange.go"), 0
	for name, number := range numbers(t) {
		kind, rest, _ := strings.Cut(name, "_")
		names := map[string]fmt.Stringer{"VERDICT": antientropy.VerdictKind(number), "REPORT": antientropy.Report(number)}
		if names[kind] == nil {
			continue
		}
		constant := regexp.MustCompile(`\b` + camel(name) + ` +\w+ = C\.ANTIENTROPY_` + name + `\b`)
		equal(t, []any{name, constant.MatchString(source), names[kind].String()}, []any{name, true, camel(rest)})
		count++
	}
	equal(t, strings.Count(source, " = C.ANTIENTROPY_"), count)
}

func TestVersionOfTheHeader(t *testing.T) {
	major, minor, patch := antientropy.LibraryVersion()
	numbers := numbers(t)
	wanted := []uint64{numbers["VERSION_MAJOR"], numbers["VERSION_MINOR"], numbers["VERSION_PATCH"]}
	equal(t, []uint64{uint64(major), uint64(minor), uint64(patch)}, wanted)
}
