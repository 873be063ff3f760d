/* The sentence for the help desk beside each number of an answer (docs/NUMBERS.md). */
#ifndef EDDYPLUME_SENTENCES_H
#define EDDYPLUME_SENTENCES_H

static const char *const eddyplume_sentences[26] = {
    "The data set was read and the bytes to check were formed.",
    "The study is larger than this check takes.",
    "The study is cut short, or a length in it is too large.",
    "The study has an item or delimiter where none may stand, or something else where one must.",
    "The elements of the study are not in order.",
    "The study has an element of an unknown type.",
    "The study has an element that is not coded as the standard says.",
    "The study has a part of odd length, for instance a name cut in the middle of a character, or one whose length is left open where this check needs it.",
    "The study is nested too deeply.",
    "The value to compare with is not a SHA-256 digest.",
    "The list of signed elements is empty or broken.",
    "The list of signed elements is not in order.",
    "The list names an element that may not be signed.",
    "An element that was signed is missing from the study.",
    "An element that was signed has lost its type.",
    "A group of elements that was signed holds one that has lost its type.",
    "There is not enough room for the bytes to check.",
    "This number is not used.",
    "The study has no such signature.",
    "The signature does not say which parameters it was made with.",
    "The parameters of the signature are missing.",
    "The signature was made for another encoding of the study.",
    "The signature uses a digest that this check does not know.",
    "The signature does not say which elements it covers.",
    "The input of the stream program is broken.",
    "The running digest is broken, or too much was fed.",
};

#endif
