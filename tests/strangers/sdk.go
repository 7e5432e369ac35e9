// Spans that OpenTelemetry's Go SDK makes, for tests/strangers.py: `sdk URL TENANT TRACES SEED`. The SDK of some systems comes
// without an exporter for OTLP, so it has one of its own here, which writes what the SDK hands it in protobuf and posts it by
// net/http. It prints each span that it was told is taken, as the bytes of its message in hex.
package main

import (
	"bytes"
	"context"
	"encoding/binary"
	"encoding/hex"
	"errors"
	"fmt"
	"io"
	"math"
	"math/rand"
	"net/http"
	"os"
	"strconv"
	"sync"
	"time"

	"go.opentelemetry.io/otel/attribute"
	"go.opentelemetry.io/otel/codes"
	"go.opentelemetry.io/otel/sdk/resource"
	sdk "go.opentelemetry.io/otel/sdk/trace"
	"go.opentelemetry.io/otel/trace"
)

func varint(value uint64) []byte {
	var room [10]byte
	return room[:binary.PutUvarint(room[:], value)]
}

// A field of bytes, also an empty one.
func field(number uint64, text []byte) []byte {
	return append(append(varint(number<<3|2), varint(uint64(len(text)))...), text...)
}

// What is the default is left out.
func unless(number uint64, text []byte) []byte {
	if len(text) == 0 {
		return nil
	}
	return field(number, text)
}

func number(at uint64, value uint64) []byte {
	if value == 0 {
		return nil
	}
	return append(varint(at<<3), varint(value)...)
}

func fixed(at uint64, value uint64) []byte {
	if value == 0 {
		return nil
	}
	return binary.LittleEndian.AppendUint64(varint(at<<3|1), value)
}

func all(parts ...[]byte) []byte {
	return bytes.Join(parts, nil)
}

func value(of attribute.Value) []byte {
	switch of.Type() {
	case attribute.BOOL:
		if of.AsBool() {
			return []byte{2<<3 | 0, 1}
		}
		return []byte{2<<3 | 0, 0}
	case attribute.INT64:
		return append(varint(3<<3), varint(uint64(of.AsInt64()))...)
	case attribute.FLOAT64:
		return binary.LittleEndian.AppendUint64(varint(4<<3|1), math.Float64bits(of.AsFloat64()))
	case attribute.STRING:
		return field(1, []byte(of.AsString()))
	case attribute.STRINGSLICE:
		var list []byte
		for _, text := range of.AsStringSlice() {
			list = append(list, field(1, field(1, []byte(text)))...)
		}
		return field(5, list)
	}
	panic(of.Type().String())
}

func attributes(at uint64, list []attribute.KeyValue) []byte {
	var text []byte
	for _, one := range list {
		text = append(text, field(at, all(unless(1, []byte(one.Key)), field(2, value(one.Value))))...)
	}
	return text
}

func message(span sdk.ReadOnlySpan) []byte {
	of, parent := span.SpanContext(), span.Parent()
	id, own := of.TraceID(), of.SpanID()
	text := all(field(1, id[:]), field(2, own[:]), unless(3, []byte(of.TraceState().String())))
	if above := parent.SpanID(); above.IsValid() {
		text = append(text, field(4, above[:])...)
	}
	text = append(text, all(unless(5, []byte(span.Name())), number(6, uint64(span.SpanKind())),
		fixed(7, uint64(span.StartTime().UnixNano())), fixed(8, uint64(span.EndTime().UnixNano())),
		attributes(9, span.Attributes()), number(10, uint64(span.DroppedAttributes())))...)
	for _, event := range span.Events() {
		text = append(text, field(11, all(fixed(1, uint64(event.Time.UnixNano())), unless(2, []byte(event.Name)),
			attributes(3, event.Attributes), number(4, uint64(event.DroppedAttributeCount))))...)
	}
	text = append(text, number(12, uint64(span.DroppedEvents()))...)
	for _, link := range span.Links() {
		id, own := link.SpanContext.TraceID(), link.SpanContext.SpanID()
		text = append(text, field(13, all(field(1, id[:]), field(2, own[:]),
			unless(3, []byte(link.SpanContext.TraceState().String())), attributes(4, link.Attributes),
			number(5, uint64(link.DroppedAttributeCount))))...)
	}
	text = append(text, number(14, uint64(span.DroppedLinks()))...)
	status := map[codes.Code]uint64{codes.Unset: 0, codes.Ok: 1, codes.Error: 2}[span.Status().Code]
	if status != 0 {
		text = append(text, field(15, all(unless(2, []byte(span.Status().Description)), number(3, status)))...)
	}
	return text
}

// Exporter posts what the SDK hands it.
type Exporter struct {
	url, tenant string
	one         sync.Mutex
}

// ExportSpans posts them again where it is told to.
func (e *Exporter) ExportSpans(asked context.Context, spans []sdk.ReadOnlySpan) error {
	var scope, texts []byte
	var lines bytes.Buffer
	for _, span := range spans {
		text := message(span)
		texts = append(texts, field(2, text)...)
		fmt.Fprintln(&lines, hex.EncodeToString(text))
	}
	library := spans[0].InstrumentationLibrary()
	scope = field(1, all(unless(1, []byte(library.Name)), unless(2, []byte(library.Version))))
	of := field(1, attributes(1, spans[0].Resource().Attributes()))
	body := field(1, all(of, field(2, all(scope, texts)), unless(3, []byte(spans[0].Resource().SchemaURL()))))
	for {
		post, fault := http.NewRequestWithContext(asked, "POST", e.url, bytes.NewReader(body))
		if fault != nil {
			return fault
		}
		post.Header.Set("Content-Type", "application/x-protobuf")
		post.Header.Set("X-Scope-OrgID", e.tenant)
		reply, fault := http.DefaultClient.Do(post)
		if fault != nil {
			return fault
		}
		content, fault := io.ReadAll(reply.Body)
		reply.Body.Close()
		if fault != nil {
			return fault
		}
		if reply.StatusCode == 200 && len(content) == 0 {
			break
		}
		if reply.StatusCode != 429 && reply.StatusCode != 503 {
			return errors.New(reply.Status + string(content))
		}
		time.Sleep(5 * time.Millisecond)
	}
	e.one.Lock()
	defer e.one.Unlock()
	_, fault := os.Stdout.Write(lines.Bytes())
	return fault
}

// Shutdown has nothing to do.
func (e *Exporter) Shutdown(context.Context) error { return nil }

func word(chance *rand.Rand) string {
	return []string{"", "a", "http.method", "über", "line\nbreak", "nul\x00", "日本語", string(make([]byte, 300))}[chance.Intn(8)]
}

func some(chance *rand.Rand) []attribute.KeyValue {
	var list []attribute.KeyValue
	for at := range make([]int, chance.Intn(6)) {
		key := attribute.Key(fmt.Sprintf("%s%d", word(chance), at))
		list = append(list, []attribute.KeyValue{
			key.Bool(chance.Intn(2) == 0), key.Int64(int64(chance.Uint64())), key.Float64(chance.NormFloat64()),
			key.String(word(chance)), key.StringSlice([]string{word(chance), word(chance)}), key.StringSlice(nil),
		}[chance.Intn(6)])
	}
	return list
}

// A span with up to three below it.
func tell(asked context.Context, chance *rand.Rand, tracer trace.Tracer, depth int, known *[]trace.SpanContext) {
	options := []trace.SpanStartOption{trace.WithSpanKind(trace.SpanKind(chance.Intn(6))), trace.WithAttributes(some(chance)...)}
	for len(*known) > 0 && chance.Intn(3) == 0 {
		link := trace.Link{SpanContext: (*known)[chance.Intn(len(*known))], Attributes: some(chance)}
		options = append(options, trace.WithLinks(link))
	}
	below, span := tracer.Start(asked, word(chance), options...)
	*known = append(*known, span.SpanContext())
	for range make([]int, chance.Intn(3)) {
		span.AddEvent(word(chance), trace.WithAttributes(some(chance)...))
	}
	if chance.Intn(4) == 0 {
		span.RecordError(errors.New(word(chance)))
		span.SetStatus(codes.Code(chance.Intn(3)), word(chance))
	}
	for range make([]int, chance.Intn(4)) {
		if depth > 0 {
			tell(below, chance, tracer, depth-1, known)
		}
	}
	span.End()
}

func main() {
	traces, _ := strconv.Atoi(os.Args[3])
	seed, _ := strconv.ParseInt(os.Args[4], 10, 64)
	exporter := &Exporter{url: os.Args[1], tenant: os.Args[2]}
	provider := sdk.NewTracerProvider(
		sdk.WithBatcher(exporter, sdk.WithBlocking(), sdk.WithBatchTimeout(100*time.Millisecond)),
		sdk.WithSpanLimits(sdk.SpanLimits{AttributeCountLimit: 4, EventCountLimit: 2, LinkCountLimit: 1, AttributePerEventCountLimit: 3}),
		sdk.WithResource(resource.NewWithAttributes("https://opentelemetry.io/schemas/1.4.0", attribute.String("service.name", "tried"))))
	var tellers sync.WaitGroup
	for teller := 0; teller < 4; teller++ {
		tellers.Add(1)
		go func(chance *rand.Rand) {
			defer tellers.Done()
			var known []trace.SpanContext
			for at := 0; at < traces/4; at++ {
				tell(context.Background(), chance, provider.Tracer("tests/strangers", trace.WithInstrumentationVersion("1")), 3, &known)
			}
		}(rand.New(rand.NewSource(seed + int64(teller))))
	}
	tellers.Wait()
	if fault := provider.Shutdown(context.Background()); fault != nil {
		panic(fault)
	}
}
