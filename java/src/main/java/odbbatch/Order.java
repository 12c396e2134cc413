package odbbatch;

/** Which step of a replay comes next. */
public enum Order {
    /** Each request is finished before the next starts, by position. */ FIRST, /** The same from the last position. */ LAST,
    /** All that may start is started, then the first is reported. */ WIDE
}
