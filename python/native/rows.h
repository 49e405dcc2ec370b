/* SPDX-License-Identifier: ISC */
/* Made by tools/lists.py, of tools/rows.py. What the extension has by names. */

/* ROW(number, the name as hashlib has it, what its constructor's docstring says) */
#define EACH_ALGORITHM(ROW) \
    ROW(YZ_SHA1, sha1, "SHA-1 (FIPS 180-4), which is broken: for what must still read old data.") \
    ROW(YZ_SHA256, sha256, "SHA-256 (FIPS 180-4).") \
    ROW(YZ_SHA384, sha384, "SHA-384 (FIPS 180-4).") \
    ROW(YZ_SHA512, sha512, "SHA-512 (FIPS 180-4).") \
    ROW(YZ_SHA512_256, sha512_256, "SHA-512/256 (FIPS 180-4).")

/* ROW(number, a further name, of those that OpenSSL has, in lower case) */
#define EACH_OTHER_NAME(ROW) \
    ROW(YZ_SHA1, "sha-1") \
    ROW(YZ_SHA1, "ssl3-sha1") \
    ROW(YZ_SHA1, "1.3.14.3.2.26") \
    ROW(YZ_SHA256, "sha-256") \
    ROW(YZ_SHA256, "sha2-256") \
    ROW(YZ_SHA256, "2.16.840.1.101.3.4.2.1") \
    ROW(YZ_SHA384, "sha-384") \
    ROW(YZ_SHA384, "sha2-384") \
    ROW(YZ_SHA384, "2.16.840.1.101.3.4.2.2") \
    ROW(YZ_SHA512, "sha-512") \
    ROW(YZ_SHA512, "sha2-512") \
    ROW(YZ_SHA512, "2.16.840.1.101.3.4.2.3") \
    ROW(YZ_SHA512_256, "sha-512/256") \
    ROW(YZ_SHA512_256, "sha2-512/256") \
    ROW(YZ_SHA512_256, "sha512-256") \
    ROW(YZ_SHA512_256, "2.16.840.1.101.3.4.2.6")

/* ROW(number) of those of HMAC, HKDF and PBKDF2 */
#define EACH_KEYED(ROW) \
    ROW(YZ_SHA1) \
    ROW(YZ_SHA256) \
    ROW(YZ_SHA384) \
    ROW(YZ_SHA512)

/* ROW(number, the name in tokens) */
#define EACH_TOKEN(ROW) \
    ROW(YZ_SHA256, "HS256") \
    ROW(YZ_SHA384, "HS384") \
    ROW(YZ_SHA512, "HS512")

/* ROW(number, the name of a scheme of password hashes) */
#define EACH_SCHEME(ROW) \
    ROW(YZ_DJANGO_SHA256, "django-sha256") \
    ROW(YZ_DJANGO_SHA1, "django-sha1") \
    ROW(YZ_WERKZEUG_SHA256, "werkzeug-sha256") \
    ROW(YZ_WERKZEUG_SHA512, "werkzeug-sha512") \
    ROW(YZ_PHC_SHA256, "phc-sha256") \
    ROW(YZ_PHC_SHA512, "phc-sha512") \
    ROW(YZ_MOSQUITTO, "mosquitto") \
    ROW(YZ_PASSLIB_SHA1, "passlib-sha1") \
    ROW(YZ_PASSLIB_SHA256, "passlib-sha256") \
    ROW(YZ_PASSLIB_SHA512, "passlib-sha512") \
    ROW(YZ_POSTGRESQL, "postgresql") \
    ROW(YZ_WERKZEUG_SHA1, "werkzeug-sha1")
