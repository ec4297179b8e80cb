#!/usr/bin/perl
# A client that Perl's OpenAPI::Client generates from an interface, for runs/examples:
#
#     perl runs/client.pl INTERFACE ADDRESS
#
# Each line of standard input is a JSON list of a token, an operation's id, its parameters and its body, or null. For each it
# prints a line: a JSON object with the status, the body, whether the client itself refused (`unsent`), and what of the reply is
# not as the interface says (`amiss`). It ends with its input, or after two minutes. Needed: Debian's libopenapi-client-perl.
use strict;
use warnings;
use Mojo::JSON qw(decode_json encode_json false true);
use OpenAPI::Client;

alarm 120;
$| = 1;
my ($interface, $address) = @ARGV;
my $client = OpenAPI::Client->new($interface, base_url => $address);
my %routes = map { ($_->{operation_id} => $_) } $client->validator->routes->each;
my $token;
$client->ua->on(start => sub { $_[1]->req->headers->authorization("Bearer $token") });
while (my $line = <STDIN>) {
    ($token, my $operation, my $parameters, my $body) = @{decode_json $line};
    my $done = $client->call($operation => $parameters, defined $body ? (json => $body) : ());
    my ($reply, $route) = ($done->res, $routes{$operation});
    my $sent = defined $done->connection;
    my %told = (
        header => sub { my $it = $reply->headers->header($_[0]); {exists => defined $it, value => $it} },
        body => sub { {content_type => 'application/json', exists => true, value => $reply->json} },
    );
    my @amiss = $sent ? $client->validator->validate_response([@$route{qw(method path)}, $reply->code], \%told) : ();
    print encode_json({
        status => 0 + $reply->code, body => $reply->json, unsent => $sent ? false : true, amiss => [map {"$_"} @amiss],
    }), "\n";
}
