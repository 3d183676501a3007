-- The types: those of the default parser, and those of Japanese words.
SELECT * FROM ts_token_type('kumquatsieve') ORDER BY tokid;
SELECT count(*) AS usual FROM ts_token_type('default') ours JOIN ts_token_type('kumquatsieve') usual
    USING (tokid, alias, description);

CREATE FUNCTION tokens(line text) RETURNS TABLE (type text, token text) LANGUAGE sql AS $$
    SELECT alias, replace(parsed.token, E'\n', '\n')
    FROM ts_parse('kumquatsieve', line) WITH ORDINALITY parsed(tokid, token, n)
        JOIN ts_token_type('kumquatsieve') USING (tokid)
    ORDER BY n
$$;

-- Each part of speech.
SELECT * FROM tokens('私は昨日、新しい本を三冊ゆっくり読みたかった。');
SELECT * FROM tokens('しかし、この大きな東京大学さんもお静かでした！');
SELECT * FROM tokens('ええと、お話しすることは食べられないもの。');

-- English words, numbers and addresses are tokens of the default parser.
SELECT * FROM tokens('Linuxのkernel 6.1とPostgreSQL-15.3は<b>foo@example.com</b>へ');
SELECT * FROM tokens('https://ja.example.org/wiki/日本?a=1&b=2を見よ、2026年12月1日。');
SELECT * FROM tokens('state-of-the-art な naïve café×3と日本-2');

-- Such a text has the same tokens as in the default parser.
SELECT line, (SELECT array_agg(token) FROM ts_parse('kumquatsieve', line)) =
    (SELECT array_agg(token) FROM ts_parse('default', line)) AS same
FROM unnest(ARRAY['The quick-brown foxes of http://example.com/a?b=c jumped -12.5e3 times.',
    'a  b &amp; <i>c</i> /usr/lib/x.so 1.2.3 O''Reilly naïve café']) line;

-- Blanks, ends of lines, and texts without words.
SELECT * FROM tokens(E' 東京 \n\n\t大阪　京都\n');
SELECT * FROM tokens('');
SELECT * FROM tokens(E' \n ');

-- A long blank is split, so that it stays in headlines.
SELECT type, length(token) FROM tokens('東京' || repeat(E'\t', 5000) || '大阪');
SELECT type, length(token), octet_length(token) FROM tokens(repeat('　', 1500)) LIMIT 2;

-- A text of several lines, and one that is longer than what is segmented at a time.
SELECT count(*), sum(length(token)) FROM tokens(repeat(E'すもももももももものうち\n', 1000));
SELECT count(*), sum(length(token)) FROM tokens(repeat('すもももももももものうち。', 40000));
