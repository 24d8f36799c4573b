// Answers positions as smap does, with Go's reader of maps: positions MAP < POSITIONS, or positions MAP LINE COLUMN for one.
// Lines and columns count from 1. It can't part a position that no mapping answers from one that has no original: both are
// none. It is built with GO111MODULE=off and GOPATH=/usr/share/gocode, where Debian's package
// golang-github-go-sourcemap-sourcemap-dev has the reader.
package main

import (
	"bufio"
	"fmt"
	"os"
	"strconv"
	"strings"

	"github.com/go-sourcemap/sourcemap"
)

func number(text string) int {
	value, err := strconv.Atoi(text)
	if err != nil {
		panic(err)
	}
	return value
}

func main() {
	bytes, err := os.ReadFile(os.Args[1])
	if err != nil {
		panic(err)
	}
	consumer, err := sourcemap.Parse("https://example.test/js/app.js", bytes)
	if err != nil {
		panic(err)
	}
	output := bufio.NewWriterSize(os.Stdout, 65536)
	defer output.Flush()
	var room []byte
	answer := func(line, column int) {
		source, name, originalLine, originalColumn, ok := consumer.Source(line, column-1)
		if !ok {
			output.WriteString("none\n")
			return
		}
		room = append(room[:0], source...)
		room = append(room, ':')
		room = strconv.AppendInt(room, int64(originalLine), 10)
		room = append(room, ':')
		room = strconv.AppendInt(room, int64(originalColumn)+1, 10)
		if name != "" {
			room = append(room, " name "...)
			room = append(room, name...)
		}
		room = append(room, '\n')
		output.Write(room)
	}
	if len(os.Args) == 4 {
		answer(number(os.Args[2]), number(os.Args[3]))
		return
	}
	lines := bufio.NewScanner(os.Stdin)
	for lines.Scan() {
		line, column, found := strings.Cut(lines.Text(), " ")
		if !found {
			panic(fmt.Sprintf("no position: %s", lines.Text()))
		}
		answer(number(line), number(column))
	}
}
