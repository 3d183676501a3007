\echo Use "CREATE EXTENSION kumquatsieve" to load this file. \quit

DO $$
BEGIN
    IF current_setting('server_encoding') <> 'UTF8' THEN
        RAISE EXCEPTION 'kumquatsieve needs a database with the encoding UTF8'
            USING ERRCODE = 'feature_not_supported',
                DETAIL = format('This database has the encoding %s.',
                    current_setting('server_encoding')),
                HINT = 'Create a database with ENCODING ''UTF8'' TEMPLATE template0.';
    END IF;
END
$$;

-- The parser

CREATE FUNCTION kumquatsieve_start(internal, integer) RETURNS internal
    AS 'MODULE_PATHNAME', 'parser_start' LANGUAGE C STRICT PARALLEL SAFE;

CREATE FUNCTION kumquatsieve_next(internal, internal, internal) RETURNS internal
    AS 'MODULE_PATHNAME', 'parser_next' LANGUAGE C STRICT PARALLEL SAFE;

CREATE FUNCTION kumquatsieve_end(internal) RETURNS void
    AS 'MODULE_PATHNAME', 'parser_end' LANGUAGE C STRICT PARALLEL SAFE;

CREATE FUNCTION kumquatsieve_types(internal) RETURNS internal
    AS 'MODULE_PATHNAME', 'parser_types' LANGUAGE C STRICT PARALLEL SAFE;

CREATE TEXT SEARCH PARSER kumquatsieve (
    START = kumquatsieve_start,
    GETTOKEN = kumquatsieve_next,
    END = kumquatsieve_end,
    LEXTYPES = kumquatsieve_types,
    HEADLINE = prsd_headline
);
COMMENT ON TEXT SEARCH PARSER kumquatsieve IS 'Japanese words, and the tokens of the default parser';

-- The templates of dictionaries

CREATE FUNCTION kumquatsieve_init(internal) RETURNS internal
    AS 'MODULE_PATHNAME', 'dictionary_init' LANGUAGE C STRICT PARALLEL SAFE;

CREATE FUNCTION kumquatsieve_base_lexize(internal, internal, internal, internal) RETURNS internal
    AS 'MODULE_PATHNAME', 'base_lexize' LANGUAGE C STRICT PARALLEL SAFE;

CREATE FUNCTION kumquatsieve_stop_lexize(internal, internal, internal, internal) RETURNS internal
    AS 'MODULE_PATHNAME', 'stop_lexize' LANGUAGE C STRICT PARALLEL SAFE;

CREATE TEXT SEARCH TEMPLATE kumquatsieve_base (
    INIT = kumquatsieve_init, LEXIZE = kumquatsieve_base_lexize
);
COMMENT ON TEXT SEARCH TEMPLATE kumquatsieve_base IS 'base forms of Japanese words';

CREATE TEXT SEARCH TEMPLATE kumquatsieve_stop (
    INIT = kumquatsieve_init, LEXIZE = kumquatsieve_stop_lexize
);
COMMENT ON TEXT SEARCH TEMPLATE kumquatsieve_stop IS
    'drops Japanese words by their base forms, or all words if there is no list';

-- The configuration

CREATE TEXT SEARCH DICTIONARY japanese_base (
    TEMPLATE = kumquatsieve_base, StopWords = kumquatsieve
);
COMMENT ON TEXT SEARCH DICTIONARY japanese_base IS 'base forms of Japanese words, without stop words';

CREATE TEXT SEARCH DICTIONARY japanese_stop (TEMPLATE = kumquatsieve_stop);
COMMENT ON TEXT SEARCH DICTIONARY japanese_stop IS 'drops all words';

CREATE TEXT SEARCH CONFIGURATION japanese (PARSER = kumquatsieve);
COMMENT ON TEXT SEARCH CONFIGURATION japanese IS
    'configuration for Japanese, with English words by english_stem';

ALTER TEXT SEARCH CONFIGURATION japanese
    ADD MAPPING FOR noun, proper_noun, pronoun, numeral, verb, adjective, adverb, adnominal,
        conjunction, interjection, prefix, suffix, dependent, other
    WITH japanese_base;

-- A dropped word keeps its position, so that a phrase matches only with the same words between.
ALTER TEXT SEARCH CONFIGURATION japanese
    ADD MAPPING FOR particle, auxiliary, symbol WITH japanese_stop;

ALTER TEXT SEARCH CONFIGURATION japanese
    ADD MAPPING FOR asciiword, asciihword, hword_asciipart, word, hword, hword_part
    WITH english_stem;

ALTER TEXT SEARCH CONFIGURATION japanese
    ADD MAPPING FOR numword, email, url, host, sfloat, version, hword_numpart, numhword, url_path,
        file, "float", "int", uint
    WITH simple;

-- The dictionary

CREATE FUNCTION kumquatsieve_dictionary_info(
    OUT number integer, OUT path text, OUT is_user boolean, OUT sha256 text, OUT entries bigint,
    OUT size bigint)
    RETURNS SETOF record
    AS 'MODULE_PATHNAME', 'dictionary_info' LANGUAGE C STRICT STABLE PARALLEL SAFE;
COMMENT ON FUNCTION kumquatsieve_dictionary_info() IS
    'the images of the dictionary: the system dictionary, and then the user dictionaries';
