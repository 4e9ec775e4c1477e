<?php
// PHP's `parse_url`.
foreach (array_slice(explode("\n", stream_get_contents(STDIN)), 0, -1) as $text) {
    $it = parse_url($text);
    $found = $it === false ? ["refused" => "false"] : [
        "scheme" => $it["scheme"] ?? null, "user" => $it["user"] ?? null, "password" => $it["pass"] ?? null, "host" => $it["host"] ?? null,
        "port" => $it["port"] ?? null, "path" => $it["path"] ?? "", "query" => $it["query"] ?? null];
    echo json_encode(array_filter($found, fn($part) => $part !== null), JSON_INVALID_UTF8_SUBSTITUTE), "\n";
}
