\name{rcell_program}
\alias{rcell_program}
\title{Find the program rcell-pipe}
\description{Return the path and the version of \command{rcell-pipe}, the program that runs all scripts.}
\usage{
rcell_program()
}
\details{
The package uses the first program that it finds in the following places:
\enumerate{
\item the option \code{rcell.program};
\item the environment variable \code{RCELL_PIPE};
\item the folder of the program in the environment variable \code{RCELL};
\item this package;
\item the search path.
}
Before the program is used for the first time, it is tested on three cells.
}
\value{
A list with the elements \code{path} and \code{version}. The version is known only for the program in this package;
otherwise it is \code{NA}. If no program is found, an error of class \code{rcell_missing} is raised. If the program
fails the test, the class is \code{rcell_wrong_program}.
}
\examples{
basename(rcell_program()$path)
}
