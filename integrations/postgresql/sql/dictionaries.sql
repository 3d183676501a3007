-- Base forms, by the context of a text and by the cheapest entry.
SELECT to_tsvector('japanese', '走った。走らない。走れば、美しかった花が咲いている。');
SELECT to_tsvector('japanese', '行った'), to_tsvector('japanese', 'これを行った');
SELECT alias, token, dictionary, lexemes
FROM ts_debug('japanese', '東京大学でLinuxサーバーを3台使っている。');
SELECT ts_lexize('japanese_base', word)
FROM unnest(ARRAY['走っ', '美しかっ', 'ホゲホゲ', 'Linux', 'する', '']) word;
SELECT ts_lexize('japanese_stop', word) FROM unnest(ARRAY['走っ', 'を', '']) word;

-- NFKC and lower case: half-width katakana, full-width letters, and compatibility characters.
SELECT ts_lexize('japanese_base', word)
FROM unnest(ARRAY['ﾃﾞｰﾀﾍﾞｰｽ', 'ＬＩＮＵＸ', '㌔', 'Ⅳ', 'が', 'ÀÉ']) word;
SELECT to_tsvector('japanese', 'ＬＩＮＵＸとﾃﾞｰﾀﾍﾞｰｽ');

-- A lexeme that NFKC makes too long for a tsvector is dropped.
SELECT ts_lexize('japanese_base', repeat('ﷺ', 20)) = ARRAY[repeat('صلى الله عليه وسلم', 20)] AS kept,
    ts_lexize('japanese_base', repeat('ﷺ', 100)) AS dropped;

-- Options.
CREATE TEXT SEARCH DICTIONARY readings (
    TEMPLATE = kumquatsieve_base, Field = 'reading', Fold = false);
SELECT ts_lexize('readings', word) FROM unnest(ARRAY['東京', '行っ', 'ﾃﾞ', 'する']) word;
CREATE TEXT SEARCH DICTIONARY listed_stop (TEMPLATE = kumquatsieve_stop, StopWords = kumquatsieve);
SELECT ts_lexize('listed_stop', word) FROM unnest(ARRAY['東京', 'し', 'する']) word;
CREATE TEXT SEARCH DICTIONARY broken (TEMPLATE = kumquatsieve_base, Fold = maybe);
CREATE TEXT SEARCH DICTIONARY broken (TEMPLATE = kumquatsieve_base, Base = off);
CREATE TEXT SEARCH DICTIONARY nameless (TEMPLATE = kumquatsieve_base, Field = 'no_such_field');
SELECT ts_lexize('nameless', '東京');
SELECT ts_lexize('nameless', 'ホゲホゲ');

-- After an error within a text, no word of it is found by its address.
CREATE TEXT SEARCH CONFIGURATION failing (COPY = japanese);
ALTER TEXT SEARCH CONFIGURATION failing ALTER MAPPING FOR verb WITH nameless;
DO $$
BEGIN
    FOR i IN 1..3 LOOP
        BEGIN
            PERFORM to_tsvector('failing', '東京へ行った。');
        EXCEPTION WHEN OTHERS THEN
            RAISE NOTICE '% %', SQLSTATE, SQLERRM;
        END;
        RAISE NOTICE '%', to_tsvector('japanese', '東京へ行った。');
    END LOOP;
END
$$;

-- Two configurations in one query take turns with the segmenter.
CREATE TEXT SEARCH CONFIGURATION readings_too (COPY = japanese);
ALTER TEXT SEARCH CONFIGURATION readings_too ALTER MAPPING REPLACE japanese_base WITH readings;
SELECT to_tsvector('japanese', a) || to_tsvector('readings_too', b)
FROM (VALUES (E'東京\n大阪', '京都へ'), ('京都', E'\n\n大阪へ')) texts(a, b);
