-- Queries. A dropped word keeps its position, so a phrase matches only with a word between.
SELECT to_tsquery('japanese', '走る & !泳いだ'), to_tsquery('japanese', '東京:*'),
    plainto_tsquery('japanese', '東京の大学'), phraseto_tsquery('japanese', '東京の大学'),
    websearch_to_tsquery('japanese', '"東京の大学" or Servers -京都');
SELECT text, to_tsvector('japanese', text) @@ phraseto_tsquery('japanese', '日本の歴史') AS found
FROM unnest(ARRAY['日本の歴史', '日本と歴史', '日本歴史', '日本。歴史']) text;
SELECT to_tsquery('japanese', 'は');

-- Headlines.
SELECT ts_headline('japanese', text, websearch_to_tsquery('japanese', query),
    'MaxWords=12, MinWords=4, ShortWord=0')
FROM (VALUES ('吾輩は猫である。名前はまだ無い。どこで生れたかとんと見当がつかぬ。', '名前'),
    ('彼はLinuxのservers、とくに<b>PostgreSQL</b>を使っていた。', 'server 使う'),
    ('京都へ行きました。', '行く'),
    (E'東京\n大阪　京都', '大阪 京都')) texts(text, query);
SELECT ts_headline('japanese', text, to_tsquery('japanese', 'は'),
    'HighlightAll=true, StartSel="", StopSel=""') = text AS complete
FROM unnest(ARRAY['a<b>東京</b> & http://example.com/日本  foo-bar-baz', E'　\n𠮷野家\n\nで👍🏽 '])
    text;

-- An index.
CREATE TABLE articles (
    id integer GENERATED ALWAYS AS IDENTITY,
    body text,
    words tsvector GENERATED ALWAYS AS (to_tsvector('japanese', body)) STORED);
INSERT INTO articles (body) VALUES ('東京都に住んでいる。'), ('京都の寺を訪ねた。'),
    ('Running PostgreSQL servers in Tokyo'), (NULL), ('');
CREATE INDEX ON articles USING gin (words);
CREATE INDEX ON articles USING gin (to_tsvector('japanese', body));
SET enable_seqscan = off;
EXPLAIN (COSTS OFF) SELECT id FROM articles WHERE words @@ to_tsquery('japanese', '京都');
SELECT id FROM articles WHERE words @@ to_tsquery('japanese', '京都');
SELECT id FROM articles WHERE words @@ to_tsquery('japanese', '住む | 訪ねる') ORDER BY id;
SELECT id FROM articles WHERE to_tsvector('japanese', body) @@ websearch_to_tsquery('japanese', 'server run');
SELECT word, ndoc FROM ts_stat('SELECT words FROM articles') ORDER BY word COLLATE "C";
