-- The only image that is installed is the dictionary.
LOAD 'kumquatsieve';
SHOW kumquatsieve.dictionary;
SELECT number, is_user, length(sha256), entries, path LIKE '%/ipadic.img' AS path
FROM kumquatsieve_dictionary_info();

-- A value is checked when it is set.
\set VERBOSITY default
SET kumquatsieve.dictionary = '/dev/null';
SET kumquatsieve.user_dictionaries = '"';
\set VERBOSITY terse
SET kumquatsieve.dictionary = 'no_such_image';
SET kumquatsieve.user_dictionaries = 'ipadic';
ALTER ROLE CURRENT_USER SET kumquatsieve.dictionary = 'no_such_image';
SET kumquatsieve.no_such_setting = 'x';
SET kumquatsieve.dictionary = 'ipadic';
SELECT to_tsvector('japanese', 'すもももももももものうち');
RESET kumquatsieve.dictionary;

-- Only a superuser sets them.
CREATE ROLE regress_reader;
SET ROLE regress_reader;
SET kumquatsieve.dictionary = 'ipadic';
SET kumquatsieve.expected_sha256 = '';
SELECT to_tsvector('japanese', 'すもももももももものうち');
SELECT count(*) FROM kumquatsieve_dictionary_info();
RESET ROLE;
DROP ROLE regress_reader;

-- Another dictionary than that of an index is detected.
SELECT sha256 AS wanted FROM kumquatsieve_dictionary_info() \gset
SET kumquatsieve.expected_sha256 = :'wanted';
SELECT to_tsvector('japanese', 'すもももももももものうち');
SET kumquatsieve.expected_sha256 = '00';
SELECT to_tsvector('japanese', 'すもももももももものうち');
SELECT to_tsquery('japanese', 'すもも');
SELECT count(*) FROM kumquatsieve_dictionary_info();
RESET kumquatsieve.expected_sha256;
SELECT to_tsquery('japanese', 'すもも');
