package client

import (
	"os"
	"strings"
	"testing"
)

// The first code of the README is that of ExampleNew.
func TestReadme(t *testing.T) {
	readme, err := os.ReadFile("../README.md")
	good(t, err)
	example, err := os.ReadFile("example_test.go")
	good(t, err)
	_, code, _ := strings.Cut(string(readme), "```go\n")
	code, _, _ = strings.Cut(code, "```")
	indented := strings.ReplaceAll("\n"+strings.TrimSuffix(code, "\n"), "\n", "\n\t")
	if len(code) < 100 || !strings.Contains(string(example), indented+"\n") {
		t.Error("the README has other code than example_test.go")
	}
}
