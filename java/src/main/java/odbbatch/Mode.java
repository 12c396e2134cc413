package odbbatch;

/** What an error, a status from 400 to 599, does to a run. */
public enum Mode {
    /** What depends on the request is skipped. */ CONTINUE, /** Nothing is started any more. */ STOP
}
