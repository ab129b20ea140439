// How long a query takes over small documents and one of a megabyte, beside encoding/json: `go test -run - -bench .`

package jp_test

import (
	"encoding/json"
	"fmt"
	"strings"
	"testing"

	jp "jsonpath-jp"
)

const small = `{"store":{"book":[{"title":"A","price":9},{"title":"B","price":12}],"owner":"Ada Lovelace"}}`

// books gives a document of so many books, some 87 bytes each.
func books(count int) []byte {
	var text strings.Builder
	for at := 0; at < count; at++ {
		fmt.Fprintf(&text, `,{"category":"fiction","author":"Evelyn Waugh","title":"Sword %d","price":%d}`, at, at%100)
	}
	return []byte(`{"store":{"book":[` + text.String()[1:] + `]}}`)
}

func measure(b *testing.B, query string, source jp.Source, size int) {
	b.Helper()
	compiled := jp.MustCompile(query)
	defer compiled.Close()
	b.SetBytes(int64(size))
	b.ReportAllocs()
	b.ResetTimer()
	for made := 0; made < b.N; made++ {
		if _, err := compiled.Find(source); err != nil {
			b.Fatal(err)
		}
	}
}

func BenchmarkCompile(b *testing.B) {
	for made := 0; made < b.N; made++ {
		jp.MustCompile("$.store.book[?@.price<10].title").Close()
	}
}

func BenchmarkSmall(b *testing.B) {
	measure(b, "$.store.book[?@.price<10].title", jp.Text(small), len(small))
}

func BenchmarkSmallDocument(b *testing.B) {
	document, _ := jp.NewDocument([]byte(small))
	defer document.Close()
	measure(b, "$.store.book[?@.price<10].title", document, len(small))
}

func BenchmarkSmallUnmarshal(b *testing.B) {
	unmarshals(b, []byte(small))
}

func BenchmarkMegabyte(b *testing.B) {
	for _, query := range []string{"$.store.book[3].title", "$.store.book[?@.price<1].title", "$..price", "$.store.book[*]"} {
		text := books(12_000)
		b.Run(query, func(b *testing.B) { measure(b, query, jp.Text(text), len(text)) })
	}
}

func BenchmarkMegabyteDocument(b *testing.B) {
	text := books(12_000)
	document, _ := jp.NewDocument(text)
	defer document.Close()
	measure(b, "$.store.book[?@.price<1].title", document, len(text))
}

func BenchmarkMegabyteUnmarshal(b *testing.B) {
	unmarshals(b, books(12_000))
}

// unmarshals has encoding/json read the text, and asks it nothing.
func unmarshals(b *testing.B, text []byte) {
	b.Helper()
	b.SetBytes(int64(len(text)))
	b.ReportAllocs()
	b.ResetTimer()
	for made := 0; made < b.N; made++ {
		var value any
		if err := json.Unmarshal(text, &value); err != nil {
			b.Fatal(err)
		}
	}
}
