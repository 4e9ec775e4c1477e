// What the readers in Go share: each line of the input is a text, and is answered by a line of JSON. An error is a refusal.
package main

import (
	"bufio"
	"fmt"
	"io"
	"net/url"
	"os"
	"sort"
	"strings"
)

type parts map[string]string

// partsOf has the parts of a URL: of HTTP the path and the query as they are sent.
func partsOf(it *url.URL) parts {
	found := parts{"scheme": it.Scheme, "host": it.Hostname(), "port": it.Port(), "path": it.Path}
	if it.Scheme == "http" || it.Scheme == "https" {
		found["path"], found["query"] = it.EscapedPath(), it.RawQuery
	}
	if it.User != nil {
		found["user"] = it.User.Username()
		found["password"], _ = it.User.Password()
	}
	return found
}

// quoted writes a text as JSON, with the bytes past 127 as they are.
func quoted(text string) string {
	var out strings.Builder
	out.WriteByte('"')
	for i := 0; i < len(text); i++ {
		if c := text[i]; c < 32 || c == '"' || c == '\\' || c == 127 {
			fmt.Fprintf(&out, "\\u%04x", c)
		} else {
			out.WriteByte(c)
		}
	}
	out.WriteByte('"')
	return out.String()
}

func written(found parts) string {
	var members []string
	for name, value := range found {
		members = append(members, quoted(name)+": "+quoted(value))
	}
	sort.Strings(members)
	return "{" + strings.Join(members, ", ") + "}"
}

func main() {
	given, _ := io.ReadAll(os.Stdin)
	out := bufio.NewWriter(os.Stdout)
	defer out.Flush()
	lines := strings.Split(string(given), "\n")
	for _, text := range lines[:len(lines)-1] {
		found, err := read(text)
		if err != nil {
			found = parts{"refused": err.Error()}
		}
		fmt.Fprintln(out, written(found))
	}
}
