// License: GPL v2 or later. For details, see the file LICENSE.
package org.openstreetmap.josm.plugins.maproom;

import java.math.BigDecimal;
import java.util.ArrayList;
import java.util.LinkedHashMap;
import java.util.List;
import java.util.Map;

/**
 * Reads and writes JSON. JOSM has a library for it, but its package was renamed in 2023 from javax.json to
 * jakarta.json, so a plugin that uses it works with only some versions of JOSM. Whole numbers keep all their digits.
 */
final class Json {
    /** How deep a text may nest. A room sends no more than six levels. */
    private static final int MOST_DEPTH = 127;

    private final String text;
    private int at;
    private int depth;

    private Json(String text) {
        this.text = text;
    }

    /**
     * Reads a text: objects as maps, arrays as lists, whole numbers as Long, other numbers as BigDecimal.
     * @throws IllegalArgumentException if the text is no JSON
     */
    static Object read(String text) {
        Json reader = new Json(text);
        Object value = reader.value();
        reader.skipSpace();
        if (reader.at != text.length()) throw reader.fault();
        return value;
    }

    private IllegalArgumentException fault() {
        return new IllegalArgumentException("no JSON at position " + at);
    }

    private void skipSpace() {
        while (at < text.length() && " \t\r\n".indexOf(text.charAt(at)) >= 0) at++;
    }

    private char next() {
        skipSpace();
        if (at >= text.length()) throw fault();
        return text.charAt(at);
    }

    private void expect(char wanted) {
        if (next() != wanted) throw fault();
        at++;
    }

    private Object value() {
        char first = next();
        if (first == '{' || first == '[') {
            if (++depth > MOST_DEPTH) throw fault();
            Object value = first == '{' ? object() : array();
            depth--;
            return value;
        }
        if (first == '"') return string();
        if (first == 't') return word("true", Boolean.TRUE);
        if (first == 'f') return word("false", Boolean.FALSE);
        if (first == 'n') return word("null", null);
        return number();
    }

    private Object word(String word, Object value) {
        if (!text.startsWith(word, at)) throw fault();
        at += word.length();
        return value;
    }

    private Map<String, Object> object() {
        Map<String, Object> object = new LinkedHashMap<>();
        expect('{');
        if (next() == '}') {
            at++;
            return object;
        }
        while (true) {
            if (next() != '"') throw fault();
            String key = string();
            expect(':');
            object.put(key, value());
            char end = next();
            at++;
            if (end == '}') return object;
            if (end != ',') throw fault();
        }
    }

    private List<Object> array() {
        List<Object> array = new ArrayList<>();
        expect('[');
        if (next() == ']') {
            at++;
            return array;
        }
        while (true) {
            array.add(value());
            char end = next();
            at++;
            if (end == ']') return array;
            if (end != ',') throw fault();
        }
    }

    private String string() {
        int begin = ++at;
        while (at < text.length() && text.charAt(at) != '"' && text.charAt(at) != '\\') at++;
        if (at >= text.length()) throw fault();
        if (text.charAt(at) == '"') return text.substring(begin, at++);
        StringBuilder made = new StringBuilder(text.substring(begin, at));
        while (true) {
            if (at >= text.length()) throw fault();
            char each = text.charAt(at++);
            if (each == '"') return made.toString();
            made.append(each == '\\' ? escaped() : each);
        }
    }

    private char escaped() {
        if (at >= text.length()) throw fault();
        char each = text.charAt(at++);
        switch (each) {
        case '"': case '\\': case '/': return each;
        case 'b': return '\b';
        case 'f': return '\f';
        case 'n': return '\n';
        case 'r': return '\r';
        case 't': return '\t';
        case 'u':
            if (at + 4 > text.length()) throw fault();
            at += 4;
            return (char) Integer.parseInt(text.substring(at - 4, at), 16);
        default: throw fault();
        }
    }

    private Object number() {
        int begin = at;
        while (at < text.length() && "+-.eE0123456789".indexOf(text.charAt(at)) >= 0) at++;
        if (begin == at) throw fault();
        String digits = text.substring(begin, at);
        try {
            return Long.valueOf(digits);
        } catch (NumberFormatException e) {
            return new BigDecimal(digits); // or a NumberFormatException, which is an IllegalArgumentException
        }
    }

    /** Writes a value that {@link #read} could give. */
    static String write(Object value) {
        StringBuilder made = new StringBuilder();
        write(value, made);
        return made.toString();
    }

    private static void write(Object value, StringBuilder made) {
        if (value instanceof Map) {
            char before = '{';
            for (Map.Entry<?, ?> each : ((Map<?, ?>) value).entrySet()) {
                made.append(before);
                writeText((String) each.getKey(), made);
                made.append(':');
                write(each.getValue(), made);
                before = ',';
            }
            made.append(before == '{' ? "{}" : "}");
        } else if (value instanceof List) {
            char before = '[';
            for (Object each : (List<?>) value) {
                made.append(before);
                write(each, made);
                before = ',';
            }
            made.append(before == '[' ? "[]" : "]");
        } else if (value instanceof String) {
            writeText((String) value, made);
        } else {
            made.append(value);
        }
    }

    private static void writeText(String text, StringBuilder made) {
        made.append('"');
        for (int i = 0; i < text.length(); i++) {
            char each = text.charAt(i);
            if (each == '"' || each == '\\') {
                made.append('\\').append(each);
            } else if (each < ' ') {
                made.append(String.format("\\u%04x", (int) each));
            } else {
                made.append(each);
            }
        }
        made.append('"');
    }
}
